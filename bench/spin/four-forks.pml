/*
 * samples/four-forks.oolong: five threads that each add to the stitches of one petal under its lock. A process is a thread of the script, and its five steps are these moves of that thread:
 *
 *   taking the petal  lock(petal1) in ..: the thread waits while another holds it
 *   the read          this.stitches
 *   the sum           sewn + count
 *   the write         this.stitches = ..
 *   opening it        the value at the lock frame
 *
 * Its six other moves, all of them under the lock, have no step: the call and the let's binding, which are published, and four silent ones. The script's four forks are one step here, so no thread
 * moves before all are there. Its joins, and the read behind them, are what init waits for and asks. That a process ends is a step of SPIN's own.
 */
byte owner /* of the petal: 0 if it is open, or the thread that holds it */
int stitches

proctype sew(byte me) {
  int sewn;
  atomic { owner == 0 -> owner = me };
  sewn = stitches;
  sewn = sewn + 10 * me;
  /* Nobody reads the local again. It is cleared, so that states do not differ by it. */
  d_step { stitches = sewn; sewn = 0 };
  owner = 0
}

init {
  atomic { run sew(1); run sew(2); run sew(3); run sew(4); run sew(5) };
  _nr_pr == 1;
  assert(stitches == 150)
}
