"""The jobs of tasks, queues and objects that the scripts run, by the number of their turns, tasks or items."""
import loops

# So many of the same lines stand in a row, so that a turn of the loop round them counts little.
ROW = 20


def looped(head, declarations, count, lines):
    """A job whose main goes over these lines so many times."""
    body = "".join(f"    {line}\n" for line in lines)
    return f"""swan 1
{head}task main
{declarations}  var i int
  var more int
  do
  more = lt i {count}
  while more
{body}    i = add i 1
    more = lt i {count}
  end
"""


def spawns(turns):
    """ROW times a spawn of a task that ends at once, and a sync."""
    return looped("task child\n  do\nend\n", "", turns, ["spawn 1 child", "sync"] * ROW) + "end\n"


def pushes(turns):
    """ROW times a push, and then as many pops."""
    return looped("", "  queue q int\n  var n int\n", turns, ["push q 1"] * ROW + ["pop n q"] * ROW) + "end\n"


def reads(turns):
    """ROW times a write and a read."""
    return looped("object x int\n", "  var n int\n", turns, ["write x 1", "read n x"] * ROW) + "end\n"


def queues_of_children(count):
    """Children that each make a queue, push, pop and end."""
    child = "task child\n  queue q int\n  var n int\n  do\n  push q 1\n  pop n q\nend\n"
    return looped(child, "", count, ["spawn 5 child"]) + "end\n"


def children(count):
    """Children that end at once."""
    return looped("task child\n  do\nend\n", "", count, ["spawn 1 child"]) + "end\n"


def chain(count):
    """Children of which each adds one to the same object."""
    child = "task child\n  inout x int\n  var n int\n  do\n  read n x\n  n = add n 1\n  write x n\nend\n"
    return looped("object x int\n" + child, "", count, ["spawn 5 child x"]) + "end\n"


def readers(count):
    """Children that read an object, and then one that writes it."""
    reader = "task reader\n  in x int\n  var n int\n  do\n  read n x\nend\n"
    writer = "task writer\n  inout x int\n  do\n  write x 1\nend\n"
    return looped("object x int\n" + reader + writer, "", count, ["spawn 3 reader x"]) + "  spawn 3 writer x\nend\n"


def poppers(count):
    """A row of items in one queue, and after each a child that pops it."""
    popper = "task popper\n  pop q int\n  var n int\n  do\n  pop n q\nend\n"
    return looped(popper, "  queue q int\n", count, ["push q 1", "spawn 2 popper q"]) + "end\n"


EATER = """task eater
  pop q int
  push sums int
  var n int
  var s int
  var none int
  var more int
  do
  empty none q
  more = not none
  while more
    pop n q
    s = add s n
    empty none q
    more = not none
  end
  push sums s
end
"""


def producers(count):
    """Children that push an item each, and then one that pops them all."""
    feeder = "task feeder\n  push q int\n  do\n  push q 1\nend\n"
    made = looped("output sums int\n" + feeder + EATER, "  queue q int\n", count, ["spawn 2 feeder q"])
    return made + f"  spawn {9 * count + 9} eater q sums\nend\n"


def pipeline(count):
    """Items that go through five stages: one that makes them, three that hand them on, and one that adds them."""
    source = f"""task source
  push to int
  var i int
  var more int
  do
  more = lt i {count}
  while more
    push to i
    i = add i 1
    more = lt i {count}
  end
end
"""
    stage = """task stage
  pop from int
  push to int
  var n int
  var none int
  var more int
  do
  empty none from
  more = not none
  while more
    pop n from
    push to n
    empty none from
    more = not none
  end
end
"""
    fuel = 7 * count + 9
    stages = "".join(f"  spawn {fuel} stage q{i} q{i + 1}\n" for i in range(3))
    queues = "".join(f"  queue q{i} int\n" for i in range(4))
    return f"swan 1\noutput sums int\n{source}{stage}{EATER}task main\n{queues}  do\n  spawn {fuel} source q0\n{stages}  spawn {fuel} eater q3 sums\nend\n"


def bursts(count):
    """Items that one task pushes ROW in a row, with a loop of 500 steps of work behind each row, and another one pops."""
    pushes = "    push to i\n" * ROW
    source = f"""task source
  push to int
  var i int
  var j int
  var more int
  var busy int
  do
  more = lt i {count // ROW}
  while more
{pushes}    j = set 0
    busy = lt j 125
    while busy
      j = add j 1
      busy = lt j 125
    end
    i = add i 1
    more = lt i {count // ROW}
  end
end
"""
    fuel = 40 * count + 9
    return f"swan 1\noutput sums int\n{source}{EATER}task main\n  queue q int\n  do\n  spawn {fuel} source q\n  spawn {fuel} eater q sums\nend\n"


# So many queues have a consumer each.
QUEUES = 20


def consumers(count):
    """A child that pushes so many items to QUEUES queues in turn, and then one for each of these that pops them all."""
    turns = count // QUEUES
    places = "".join(f"  push q{i} int\n" for i in range(QUEUES))
    pushes = "".join(f"    push q{i} n\n" for i in range(QUEUES))
    feeder = f"""task feeder
{places}  var n int
  var more int
  do
  more = lt n {turns}
  while more
{pushes}    n = add n 1
    more = lt n {turns}
  end
end
"""
    queues = "".join(f"  queue q{i} int\n" for i in range(QUEUES))
    names = " ".join(f"q{i}" for i in range(QUEUES))
    eaters = "".join(f"  spawn {9 * turns + 9} eater q{i} sums\n" for i in range(QUEUES))
    fuel = (QUEUES + 4) * turns + 9
    return f"swan 1\noutput sums int\n{feeder}{EATER}task main\n{queues}  do\n  spawn {fuel} feeder {names}\n{eaters}end\n"


def works(tasks, turns):
    """Children that each go over a loop of int arithmetic so many times, and share nothing but the order of their results."""
    child = f"task child\n  push sum int\n{loops.summing(turns)}"
    spawns = f"  spawn {5 * turns + 9} child sum\n" * tasks
    return f"swan 1\noutput sum int\n{child}task main\n  do\n{spawns}end\n"


# How many tasks stand one below the other in a dive.
DEPTH = 60


def dives(count):
    """Tasks that spawn one below the other, DEPTH deep, so many times."""
    down = "task down\n  param left int\n  var f int\n  do\n  if left\n    left = sub left 1\n    fuel f\n    f = sub f 4\n    spawn f down left\n  end\nend\n"
    return looped(down, "", count, [f"spawn {8 * DEPTH} down {DEPTH}"]) + "end\n"
