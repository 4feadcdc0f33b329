"""The loops of jobs that the scripts run, by the number of their turns."""


def summing(turns):
    """The lines of a task that sums so many numbers in a loop, and pushes the sum to its queue `sum`."""
    return f"""  var i int
  var s int
  var more int
  do
  more = lt i {turns}
  while more
    i = add i 1
    s = add s i
    more = lt i {turns}
  end
  push sum s
end
"""


def ints(turns):
    """Int arithmetic: two sums, a comparison, and the `while` and `end` that go round."""
    return f"swan 1\noutput sum int\ntask main\n{summing(turns)}"


def texts(turns):
    """Text: four times a `find` and a `slice`, then a sum, a comparison, `while` and `end`."""
    return f"""swan 1
output left int
task main
  var i int
  var line bytes
  var at int
  var part bytes
  var more int
  do
  line = set "some text with a few words in it"
  more = lt i {turns}
  while more
    at = find line 119 0
    part = slice line at 14
    at = find line 102 at
    part = slice line at 20
    at = find line 119 at
    part = slice line at 26
    at = find line 105 at
    part = slice line at 29
    i = add i 1
    more = lt i {turns}
  end
  at = len part
  push left at
end
"""


def queues(turns):
    """Queues: 8 pushes, 8 pops and 9 tests whether the queue is empty, and 64 other steps."""
    return f"""swan 1
output sum int
task main
  var i int
  var k int
  var s int
  var none int
  var more int
  queue q int
  do
  more = lt i {turns}
  while more
    k = set 8
    while k
      push q k
      k = sub k 1
    end
    empty none q
    more = not none
    while more
      pop k q
      s = add s k
      empty none q
      more = not none
    end
    i = add i 1
    more = lt i {turns}
  end
  push sum s
end
"""


# How many steps a turn has.
INT_STEPS, TEXT_STEPS, QUEUE_STEPS = 5, 12, 89
