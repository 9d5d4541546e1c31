/*
 * samples/philosophers.oolong: five heads round a turret, and a bobbin between every two. Each head takes the bobbin at its left, then the one at its right, writes, and opens both. A process is a
 * thread of the script, and its five steps are the five moves of that thread that are published:
 *
 *   taking a bobbin   lock(left1) in .., lock(right1) in ..: the thread waits while another holds it
 *   the write         left1.stitches = ..; the two silent moves before it, into the write and to its number, have no step
 *   opening one       the value at a lock frame, that of the inner lock first
 *
 * The script's four forks are one step here, so no head moves before all are there. Its joins, and the read behind them, are what init waits for and asks. That a process ends is a step of SPIN's own.
 * An invalid end state is where Run stops with 3: nothing can move, and a head has not finished.
 */
#define HEADS 5

byte owner[HEADS] /* of each bobbin: 0 if it is open, or the head that holds it */
int stitches[HEADS]

/* Head 1 has bobbin 0 at its left and 1 at its right, head 5 has 4 and 0. */
#define LEFT (me - 1)
#define RIGHT (me % HEADS)

proctype head(byte me) {
  atomic { owner[LEFT] == 0 -> owner[LEFT] = me };
  atomic { owner[RIGHT] == 0 -> owner[RIGHT] = me };
  stitches[LEFT] = 10 * me;
  owner[RIGHT] = 0;
  owner[LEFT] = 0
}

init {
  atomic { run head(1); run head(2); run head(3); run head(4); run head(5) };
  _nr_pr == 1;
  assert(stitches[4] == 50)
}
