"""One recording from its first look at the folders to its last sentence."""

import os
import re
import shlex

from .depslog import BrokenLog
from .disk import read_file, take_snapshot
from .dyndep.build import Dyndeps, log_outputs
from .dyndep.reading import Unresolvable
from .dyndep.resolving import what_cannot_be_resolved
from .events import Start
from .fields import canonical, shown
from .files import WRITTEN, names_of_files, write_recording
from .folders import OPTIONAL, BadFolder, NotInPlace, OutFolder
from .generator.recorded import TARGETS, write_targets
from .installed import word_of_launcher
from .limits import what_is_refused
from .manifest import Manifest
from .ninja import NoNinja, changed_commands, found_ninja
from .observed.observers import OWN, chosen
from .observed.own import Own
from .observed.observing import LOG, Observation, Unobserved
from .options import ALL, IF_POSSIBLE, NONE
from .recording import record, targets_of
from .running import run_ninja, run_quietly
from .signals import name_of, write_all
from .words import number_of_jobs, read_words

NOT_RUN, NOT_RECORDED = 2, 3
# Ninja's own lines, beside the commands and what these write: of these it says some again when it runs once more.
_OF_NINJA = b"ninja: "
_NAMED = 5
_SAID_AGAIN = (b"ninja: no work to do.\n",)
_JOBSERVER = re.compile(rb"ninja: .*jobserver", re.IGNORECASE)


class Failure(Exception):
    """A sentence for the user, with which the recorder ends, and its status."""

    def __init__(self, text, status=NOT_RUN):
        super().__init__(text)
        self.status = status


class OneBuild:
    """One build that is to be recorded: the options, Ninja's words, and the build folder."""

    stops = "Ninja was not run"
    """What a refusal means, as the end of a sentence."""

    def __init__(self, options, signals, say, launcher):
        self.options, self.signals, self.say, self.launcher = options, signals, say, launcher
        self.words = read_words(options.for_ninja)
        self.build = os.fsencode(options.build)
        if not os.path.isdir(self.build):
            raise Failure(f"{options.build} is no folder")

    def run(self):
        """Records it; gives the exit status."""
        raise NotImplementedError

    def look_at_limits(self, manifest):
        """Says what makes a recording useless, before anything is done."""
        unresolved = what_cannot_be_resolved(manifest)
        if unresolved:
            for it in unresolved[:_NAMED]:
                self.say(it)
            raise Failure(f"what dyndep files say cannot be put into this manifest, so {self.stops}")
        refused = what_is_refused(manifest)
        for it in refused:
            self.say(it)
        if refused and not self.options.anyway:
            raise Failure(f"rebug refuses a recording of this manifest, so {self.stops} (--anyway records it all the "
                          f"same)")

    def manifest(self):
        return Manifest(self.words.manifest, lambda name: _content(os.path.join(self.build, name)))

    def tell_notes(self, found):
        """What is to be known of a recording that was written, and what can be done with it next."""
        for note in found.notes + (found.remarks if self.options.verbose else []):
            self.say(note)
        out, count = self.options.out, len(found.found.events)
        races, ask = (" ".join(map(shlex.quote, [word_of_launcher(), word, out])) for word in ("races", "ask"))
        self.say(f"{out} has {count} event{'s' * (count != 1)} of this build. Next: {races}, or {ask}")


class Session(OneBuild):
    """Records one build while Ninja runs it, as the options say."""

    def __init__(self, options, signals, say, launcher):
        self.ninja = _ninja()
        self.program = self.ninja.program
        super().__init__(options, signals, say, launcher)

    def run(self):
        """The whole of it; gives the exit status."""
        observer = self.observer()
        with OutFolder(self.options.out) as out:
            manifest = self.up_to_date_manifest()
            self.look_at_limits(manifest)
            out.look_at_places([*names_of_files(manifest).values(), *WRITTEN, *(OPTIONAL if observer else (TARGETS,))])
            as_run = self.options.jobs_as_run or self.options.lanes
            jobs = number_of_jobs(self.program, self.words.jobs) if as_run else None
            before = self.snapshot_before(manifest)
            with self.observation(observer, manifest, out) as observation:
                words = observation.words([self.program, *self.words.all])
                ran = run_ninja(self.ninja, words, self.build, self.signals, manifest, self.options.output == ALL)
                observation.end()
            status = ran.status if ran.status >= 0 else 128 - ran.status
            try:
                return self.write(out, manifest, jobs, before, ran, status, observation)
            except (OSError, BadFolder) as why:
                reason = why.strerror or why if isinstance(why, OSError) else why
                raise Failure(f"the recording could not be written ({reason}): {self.options.out} is as it was",
                              status or NOT_RECORDED) from why
            except NotInPlace as why:
                raise Failure(f"the recording is whole, and not all of its files could be moved into their places "
                              f"({why}): the next recorder goes on with that", status or NOT_RECORDED) from why

    def observer(self):
        """What observes the build, or None; fails where that is to be and cannot."""
        if not self.options.observe:
            return None
        found, why_not = chosen(OWN if self.options.contents else self.options.observer)
        if found is None and self.options.observe != IF_POSSIBLE:
            raise Failure(f"the build cannot be observed: {why_not}. Ninja was not run (--observe=if-possible records "
                          f"without)")
        if found is None:
            self.say(f"the build cannot be observed: {why_not}. It is recorded without")
        if isinstance(found, Own):
            found.looks = self.options.contents
        return found

    def observation(self, observer, manifest, out):
        if observer is None:
            return Unobserved()
        log = out.staging.create(LOG) if self.options.keep_log else None
        if self.dyndeps:  # so that the outputs are known which dyndep files say
            manifest = Dyndeps(self.build, manifest).by_present_files()
        return Observation(observer, self.build, manifest, log, self.options.contents,
                           self.ninja.makes_folders_of_depfiles)

    def snapshot_before(self, manifest):
        """What is there before the run. Where the log's hash is not known, Ninja says which commands are others."""
        self.dyndeps = Dyndeps.of(self.build, manifest)
        more = (lambda log: self.dyndeps.more_paths() | log_outputs(log)) if self.dyndeps else (lambda _: set())
        before = take_snapshot(self.build, manifest, self.ninja, more)
        if not before.log.is_empty() and self.ninja.hash_in(before.log) is None:
            words = [self.program, "-n", "-d", "explain", *self.words.all]
            before.changed = changed_commands(run_quietly(words, self.build, self.signals, errors_alone=True)[1])
        return before

    def write(self, out, manifest, jobs, before, ran, status, observation):
        """Writes what a run of Ninja left; gives the exit status."""
        for name, content, _ in manifest.files:
            if read_file(os.path.join(self.build, name)) != content:
                raise Failure(f"{shown(name)} was written anew during the build, and a trace is of one manifest: "
                              f"nothing was recorded. Record again, now that it is there", status or NOT_RECORDED)
        try:
            resolved = self.resolved(manifest, before, ran, status)
            if resolved is not None:
                manifest = observation.manifest = resolved.manifest
            after = take_snapshot(self.build, manifest, self.ninja)
        except Unresolvable as why:
            raise Failure(f"{why}. Nothing was recorded", status or NOT_RECORDED) from why
        except BrokenLog as why:
            raise Failure(f"{why}. Nothing was recorded", status or NOT_RECORDED) from why
        found = record(self.ninja, self.build, manifest, self.words, jobs, before, after, ran,
                       resolved and resolved.late)
        if resolved is not None:
            found.dyndep, found.notes = resolved.kept, resolved.notes + found.notes
        if self.options.output == NONE:
            for run in found.runs:
                run.written = None
        built_nothing = bool(status) and not ran.interrupted and not _has_started(found, ran)
        if built_nothing and not self.options.force and out.has_recording():
            self.say(f"Ninja built nothing, so the recording in {self.options.out} stays (--force replaces it)")
            return status
        write_recording(found, out.staging, self.options.lanes, self.launcher, at=out.folder)
        write_targets(self.build, manifest, out.staging)
        observation.write(found, after, out.staging)
        self.signals.is_switching = True
        out.switch()
        if built_nothing and not ran.died:
            self.say(f"Ninja built nothing, so the recording in {self.options.out} has no command: see what Ninja said")
        else:
            self.tell(found, ran)
        return 128 + self.signals.held[0] if self.signals.held else status

    def resolved(self, manifest, before, ran, status):
        """What is recorded of a build with dyndep files; None where the manifest names none."""
        if not self.dyndeps:
            return None
        targets = targets_of(manifest, self.words.targets) or manifest.defaults()
        return self.dyndeps.resolved(self.ninja, targets, before, ran, status, self.options.anyway)

    def tell(self, found, ran):
        if ran.died and ran.status < 0:
            self.say(f"Ninja was killed by {name_of(-ran.status)}: its commands may have gone on, and the recording "
                     f"has what was there right after")
        elif ran.died:
            self.say("Ninja ended in the middle of the build: its commands may have gone on, and the recording has "
                     "what was there right after")
        self.tell_notes(found)

    def up_to_date_manifest(self):
        """Reads the manifest, once Ninja has brought it up to date where an edge of it makes it."""
        manifest = self.manifest()
        maker = manifest.producer.get(canonical(self.words.manifest))
        if maker is None:
            return manifest
        status, said = run_quietly([self.program, "-f", self.words.manifest, maker.name], self.build, self.signals)
        lines = [it for it in said.splitlines(keepends=True) if it not in _SAID_AGAIN and not _JOBSERVER.match(it)]
        write_all(1, b"".join(lines))
        if status:
            raise Failure("the manifest could not be brought up to date: nothing was recorded",
                          status if status > 0 else 128 - status)
        if all(it.startswith(_OF_NINJA) for it in lines):
            return manifest
        self.say("that was the manifest, brought up to date before the recording begins")
        return self.manifest()


def _has_started(found, ran):
    """Whether Ninja started a command."""
    return bool(ran.children or ran.failed) or any(isinstance(event, Start) for event in found.found.events)


def _ninja():
    try:
        return found_ninja()
    except NoNinja as why:
        raise Failure(str(why)) from why


def _content(path):
    try:
        with open(path, "rb") as file:
            return file.read()
    except OSError as why:
        raise Failure(f"cannot read {shown(path)}: {why.strerror}") from why
