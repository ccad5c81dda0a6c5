"""A run of a command that changes the members: it plans, shows, asks, and carries out."""
from . import table
from .asking import agrees
from .carrying import Carrying
from .deciding import Mode
from .dry_run import calls
from .lock import Lock, holder
from .output import note, paragraph, say
from .reasons import GaveUp, Halted, Settling, Stop, clause, listed, wait
from .record import Record
from .refusals import refuse_alarms, refuse_cut_off, refuse_silent, refuse_without_quorum
from .settings import SettingsFiles
from .snapshot import Snapshot

class Run:
    """A run of a command on a cluster."""

    def __init__(self, options, command, cluster, program):
        self.options, self.command, self.cluster, self.program = options, command, cluster, program
        self.record, self.has_begun = None, False
        self.snapshot, self.files = Snapshot(options), SettingsFiles(options.env_file, command.new)

    def planned(self):
        """The task in the cluster as it is now, and the ids for the record."""

        def attempt():
            view = self.cluster.look()
            self.record = Record(self.cluster.id)
            refuse_without_quorum(view, self.cluster)
            refuse_alarms(self.cluster.alarms(view), self.cluster)
            task, kept = self.command.task(self.cluster, view, self.record, self.options, self.program)
            refuse_silent(task.unexpected(view))
            refuse_cut_off(view)
            return task, kept

        return wait(self.options.limit, attempt, Settling)

    def planned_first(self):
        """The same. If it is refused while another run is on, it is said who runs."""
        try:
            return self.planned()
        except Stop as reason:
            other = holder(self.cluster) if self.cluster.seen else None
            if other is None or reason.status != Stop.status:
                raise
            raise Stop(f"{reason}. Another run changes the members: {other}") from None

    def run(self):
        """Runs it. Returns the exit status."""
        try:
            return self.run_through()
        except KeyboardInterrupt:
            if not self.has_begun:
                raise
            raise Halted("interrupted; the same command again carries on") from None

    def run_through(self):
        task, kept = self.planned_first()
        if not task.steps and not task.pending():
            self.record.end(self.command.words, task.view)
            say("there is nothing to do: the members are as they are wanted")
            return 0
        self.show(task)
        if self.options.dry_run:
            for line in calls(task, self.cluster):
                say(line)
            return 0
        is_saved = self.saves_snapshot(task)
        if not self.options.yes and not agrees("Continue?"):
            raise Stop("nothing was changed")
        lock = Lock(self.cluster, self.command.text)
        lock.take()
        self.cluster.has_written = True
        try:
            if is_saved:
                self.snapshot.save(self.cluster, task.view, self.options.limit)
            if is_saved or not self.options.yes or table.doubted(task):
                task = self.planned_again(task)
            view = self.carry_out(task, kept, lock)
        finally:
            lock.release()
        self.record.end(self.command.words, view)
        return 0

    def carry_out(self, task, kept, lock):
        """Takes all steps. Returns the cluster as it is then."""
        self.has_begun = True
        if kept:
            self.record.keep(kept, task.view)
        mode = Mode(self.program)
        carrying = Carrying(self.cluster, task, self.options, lock, mode, self.files)
        try:
            carrying.take_all()
            view = wait(self.options.limit, self.cluster.look)
            self.show_end(task, view)
            return view
        except GaveUp as reason:
            raise Halted(str(reason)) from None
        except Stop as reason:
            raise (Halted if carrying.has_changed else Stop)(str(reason)) from None
        finally:
            mode.end()

    def saves_snapshot(self, task):
        """Whether a snapshot is saved first. If there is no room for it, the operator may go on without one."""
        if not self.snapshot.is_due(task):
            return False
        lacks = self.snapshot.lacks(task.view)
        if lacks and self.options.yes:
            raise Stop(f"no snapshot can be saved before the removal: {lacks}. Name a file elsewhere (--snapshot FILE), or go on without one "
                       "(--no-snapshot)")
        if lacks and not agrees(f"No snapshot can be saved before the removal: {lacks}. Go on without one?"):
            raise Stop("nothing was changed")
        return not lacks

    def planned_again(self, task):
        """The same task in the cluster as it is after the question, or the snapshot. What was checked is checked once more."""
        again, _ = self.planned()
        if (again.steps, again.failed) != (task.steps, task.failed):
            raise Stop("the cluster is not as it was when the plan was shown, so nothing is changed. Run the command again")
        return again

    def show(self, task):
        table.show_untested(task.view)
        for line in table.plan_lines(task) if task.steps else ():
            say(line)
        for text in table.notes(task):
            paragraph(text)
        for text in table.notes_on_failed(task, self.options):
            paragraph(text)
        paragraph(table.identity(task, self.cluster))
        paragraph(table.servers(task.view))
        if self.snapshot.is_due(task):
            paragraph(f"A snapshot of the keys is saved first, to {self.snapshot.file or 'a new file in the current folder (--no-snapshot leaves it out)'}.")

    def show_end(self, task, view):
        note(f"done: the voters are {listed(member.label for member in view.voters)}")
        silent = [member.label for member in view.silent_voters()]
        if silent:
            note(f"{clause(silent, 'does', 'do')} not answer: {table.tolerance(view)}")
        before, after = ([url for member in it.members for url in self.cluster.clients_of(member)] for it in (task.view, view))
        if sorted(before) != sorted(after):
            say(f"Give your clients the new endpoints: {','.join(after)}")
        removed = [task.name(id) for id in task.leaving()]
        if removed:
            paragraph(f"Delete the data of {listed(removed)}: a removed server never comes back with it.")
