"""Decides which of several tasks run in parallel: as many as processors and memory allow, and first those for which the
longest chain of other tasks waits. A task gets more than one job if processors would be idle otherwise: either now, or
at the end, because the chain that begins with this task takes longer than all that is left takes on all processors."""
import os
import time

MOST_JOBS = 4       # the most jobs of one task
MORE_MEMORY = 0.6   # the memory of each further job, if the first one takes 1
MORE_SPEED = 0.6    # the speed that each further job is expected to add, if the first one has 1


def processors():
    return len(os.sched_getaffinity(0))


def free_memory():
    """The MB that are available without swapping, less a part that is left to other programs."""
    with open('/proc/meminfo', encoding='ascii') as file:
        found = dict(line.split(':') for line in file)
    return 0.85 * int(found['MemAvailable'].split()[0]) / 1024


class Task:
    """A task: its name, the names of the tasks that it waits for, and the expected processor minutes and MB. `begin`
    starts it with a number of jobs, and returns an object whose `poll()` is None while it runs."""

    def __init__(self, name, after, minutes, memory, begin):
        self.name, self.after, self.minutes, self.memory, self.begin = name, after, minutes, memory, begin


class Running:
    def __init__(self, task, jobs):
        self.task, self.jobs, self.began = task, jobs, time.monotonic()
        self.memory = task.memory * (1 + MORE_MEMORY * (jobs - 1))
        self.run = task.begin(jobs)

    def minutes(self):
        return (time.monotonic() - self.began) / 60

    def work(self):
        """The minutes that it would have taken so far with one job."""
        return self.minutes() * speed(self.jobs)

    def left(self, pace):
        return max(0, self.task.minutes * pace / speed(self.jobs) - self.minutes())


def speed(jobs):
    return 1 + MORE_SPEED * (jobs - 1)


def chains(tasks):
    """For each task, the minutes of the longest chain that begins with it, in which each waits for the previous one."""
    found = {}

    def chain(name):
        if name not in found:
            behind = [chain(other.name) for other in tasks.values() if name in other.after]
            found[name] = tasks[name].minutes + max(behind, default=0)
        return found[name]

    for name in tasks:
        chain(name)
    return found


def computed(tasks, lanes):
    """The minutes that the tasks would take with one job each, `lanes` of them in parallel, and memory for all. Of
    those that may begin, the one with the longest chain begins first."""
    tasks = {task.name: task for task in tasks}
    first, now, done, running = chains(tasks), 0, set(), {}
    while len(done) < len(tasks):
        ready = [task for task in tasks.values() if task.name not in done and task.name not in running
                 and done.issuperset(task.after)]
        for task in sorted(ready, key=lambda task: -first[task.name])[:lanes - len(running)]:
            running[task.name] = now + task.minutes
        ended = min(running, key=running.get)
        now = running.pop(ended)
        done.add(ended)
    return now


class Schedule:
    """All tasks, by name, those that are done, and those that are running."""

    def __init__(self, tasks, lanes=None, memory=None):
        self.tasks = {task.name: task for task in tasks}
        self.lanes, self.memory = lanes or processors(), memory or free_memory()
        self.chains = chains(self.tasks)
        self.done, self.running = set(), {}
        self.began = time.monotonic()
        self.taken = self.thought = 0

    def is_over(self):
        return len(self.done) == len(self.tasks)

    def ready(self):
        """The tasks that may begin, those with the longest chains first."""
        found = [task for task in self.tasks.values() if task.name not in self.done and task.name not in self.running
                 and self.done.issuperset(task.after)]
        return sorted(found, key=lambda task: -self.chains[task.name])

    def is_pressing(self, task):
        """Whether the task begins the longest chain that is left, and this chain alone decides when everything ends."""
        left = [other for other in self.tasks.values() if other.name not in self.done]
        longest = max(self.chains[other.name] for other in left)
        return self.chains[task.name] == longest > sum(other.minutes for other in left) / self.lanes

    def begin(self):
        """Starts the tasks that may begin and for which there are processors and memory, and returns them."""
        begun, ready = [], self.ready()
        for at, task in enumerate(ready):
            room = self.memory - sum(run.memory for run in self.running.values())
            # if a task waits for memory, the later ones wait too, because they would always take the memory first
            if len(self.running) >= self.lanes or self.running and task.memory > room:
                break
            idle = self.lanes - sum(run.jobs for run in self.running.values())
            fitting = 1 + int(max(0, room / task.memory - 1) / MORE_MEMORY)
            jobs = max(2 if self.is_pressing(task) else 1, idle // (len(ready) - at))
            jobs = min(jobs, MOST_JOBS, fitting, self.lanes)
            self.running[task.name] = Running(task, jobs)
            begun.append(self.running[task.name])
        return begun

    def ended(self):
        """Removes the tasks that have ended from the running ones, and returns them."""
        found = [run for run in self.running.values() if run.run.poll() is not None]
        for run in found:
            del self.running[run.task.name]
            self.done.add(run.task.name)
            if run.minutes() > 0.1:
                self.taken += run.work()
                self.thought += run.task.minutes
        return found

    def minutes(self):
        return (time.monotonic() - self.began) / 60

    def measured(self):
        """The minutes that tasks took here, and the minutes that they were expected to take. Both count the tasks that
        have ended, and the running ones that take longer than expected."""
        over = [run for run in self.running.values() if run.work() > run.task.minutes]
        return (self.taken + sum(run.work() for run in over),
                self.thought + sum(run.task.minutes for run in over))

    def pace(self):
        """The minutes that the tasks took so far, divided by the expected minutes."""
        taken, thought = self.measured()
        return taken / thought if thought > 1 else 1

    def left(self):
        """The minutes that are expected to be left, by the longest chain and by the sum of the remaining work."""
        pace = self.pace()
        running = {name: run.left(pace) for name, run in self.running.items()}
        waiting = {name: task.minutes * pace for name, task in self.tasks.items()
                   if name not in self.done and name not in self.running}
        behind = [running[name] + (self.chains[name] - self.tasks[name].minutes) * pace for name in running]
        behind += [self.chains[name] * pace for name in waiting]
        work = sum(waiting.values()) + sum(running[name] * speed(self.running[name].jobs) for name in running)
        return max([work / self.lanes, *behind])
