//! Ways to go wrong on purpose: the four mistakes of RULES 18.4 and one close to
//! them, others that only single steps can show, some of a lock that is taken again,
//! the four of RULES 18.12 among them, some of the count of eager calls,
//! some of the kernel word, which is the first protocol's, some of the writer of
//! books, some of a lock with one user, some of the maximum of a task, some of
//! the sizes, some of books in words, some of jobs as they are drawn, and some of jobs in
//! the line of a text. The judge can follow one of them; a right program must then differ
//! from it, which shows that the judge is able to fail a program.
//!
//! A kernel that cuts wrongly is none of them: in a sound state there is nothing to
//! cut, and any other is refused, so no program can show it. What the judge's own
//! scheduler cuts is tested in `cuts.rs`.

use crate::event::Event;
use crate::plan::{MOST_EVENTS, MOST_LOCKS, MOST_TASKS, MOST_USES};
use crate::protocol::Protocol;

#[derive(Clone, Copy, Debug, PartialEq, Eq)]
pub enum Wrong {
    /// The rules as they stand.
    Nothing,
    /// A task that is preempted counts as released anew.
    Tail,
    /// An unlock calls also where the restored word equals the second word.
    AtOrAbove,
    /// The same, and the task goes behind the others of its priority. From a
    /// fresh start a call alone elects it again.
    GivesWay,
    /// An unlock restores the base, and not the saved word.
    Base,
    /// Work counts for the newest section alone.
    Newest,
    /// A release switches also where the base equals the user word.
    ReleaseAtOrAbove,
    /// A release that switches brings in the newcomer, whoever else is kept.
    NewcomerRuns,
    /// Work is nobody's delay where the next word is at most one above the
    /// worker's base.
    SparedByOne,
    /// A lock that another task has open can be acquired.
    No17,
    /// A work of 0 is like any other work.
    No20,
    /// A delay starts again from 0 when its two bytes are full.
    DelayWraps,
    /// One more take can be had than the rules allow.
    OneMoreTake,
    /// The word of a task that finishes stays as its kept priority.
    KeptStays,
    /// A tick leaves the kernel word as it is.
    TickLeavesKernelWord,
    /// An acquire sets the kernel word as if it were a kernel entry.
    AcquireSetsKernelWord,
    /// A release that does not switch leaves the kernel word as it is.
    ReleaseLeavesKernelWord,
    /// An unlock that calls leaves the kernel word as it is.
    CallLeavesKernelWord,
    /// An unlock without a call sets the kernel word as if it were a kernel entry.
    UnlockSetsKernelWord,
    /// A switch leaves the user word of the task that leaves in the kernel word.
    KernelWordBeforeSwitch,
    /// An unlock calls also where the restored word equals the kernel word.
    KernelWordAtOrAbove,
    /// A call that elects the same task again isn't one.
    SameAgainUncounted,
    /// A state is sound also with a kernel word above the user word.
    KernelWordUnbounded,
    /// A state is sound only with a kernel word that is what the next word would
    /// be.
    KernelWordAsNext,
    /// Work is nobody's delay where the kernel word is not above the worker's base.
    SparedByKernelWord,
    /// The units of a lock go back to 0 at any unlock of it, also where it stays open.
    UnitsAtFirstReturn,
    /// A lock has no owner from the first unlock of it on, also where it stays open.
    OwnerAtFirstReturn,
    /// The units of a section start anew where its lock is taken again.
    AgainStartsAnew,
    /// Work counts once for each take of a lock.
    ChargedByTake,
    /// 18 counts open locks, and not takes.
    LocksCounted,
    /// A take of an open lock is refused, by the number that is withdrawn.
    AgainRefused,
    /// A take of an open lock saves no word.
    AgainSavesNothing,
    /// An unlock restores what was before the first take of its lock, also where other
    /// takes of it are left.
    RestoresAtOnce,
    /// A take of an open lock is an eager call.
    AgainIsCall,
    /// So is an unlock that leaves its lock open.
    InPartIsCall,
    /// 19 asks for any open lock: the newest take of it leaves the row.
    AnyTakeReturned,
    /// A state is not sound where a lock is taken twice.
    AgainInStateRefused,
    /// A state is sound also where a lock is open for two tasks.
    OpenForTwoInState,
    /// Every acquire and every unlock is an eager call.
    EveryLockAct,
    /// Of those that change a priority only acquires are eager calls.
    AcquiresAlone,
    /// The buffer's length is tested before the events.
    RoomBefore8,
    /// The byte after a written book is changed.
    ByteAfter,
    /// A refused writing changes the buffer.
    RefusalTouches,
    /// The offset of the event body is one off.
    OffsetOff,
    /// One user of a lock is enough.
    OneUser,
    /// One user of a lock is enough in a plan that comes with a state.
    OneUserInState,
    /// A lock wants three users.
    ThreeUsers,
    /// 24 is tested before 7.
    AboveMaximumBefore7,
    /// 24 is tested after 8.
    AboveMaximumAfter8,
    /// 24 is given also for a ceiling at the maximum.
    AtMaximum,
    /// 24 names the lock, and not the use.
    AboveMaximumNamesLock,
    /// 4 lets a maximum pass that is one below the base.
    MaximumOneBelow,
    /// A state is sound also with a plan that breaks 24.
    AboveMaximumInState,
    /// A state is sound also with a maximum below its base.
    BelowBaseInState,
    /// A plan has 96 tasks at most.
    FewerTasks,
    /// A plan has 3,072 uses at most.
    FewerUses,
    /// One more task than there can be.
    OneMoreTask,
    /// One more use than there can be.
    OneMoreUse,
    /// The lines of a text count from 0.
    LinesFromZero,
    /// A carriage return at a line's end is part of its last word.
    ReturnKept,
    /// A comment starts only where its line does.
    CommentAtStartAlone,
    /// A tab parts words as a space does.
    TabParts,
    /// The last number of a line may be any, and is cut to its bytes.
    LastUnlimited,
    /// A word too many is let pass.
    WordTooManyPasses,
    /// A number with zeros in front is none.
    ZerosRefused,
    /// The last line with a mistake counts.
    LastMistake,
    /// A text of the most bytes is too long.
    OneByteFewer,
    /// The line of a refusal is that of the record after it.
    LineOfNext,
    /// The comments of shown events count from 0.
    EventsFromZero,
    /// The event after the refused one is shown as refused too.
    RefusedTwice,
    /// A call is explained as if the task that runs after it had been waited for.
    WaitedForItself,
    /// 21 is explained by the newest open lock.
    NewestPassed,
    /// What is to be explained by the first protocol is explained by the second.
    ExplainedBySecond,
    /// Of a book that is refused it is not said that there was no call.
    NoCallUnsaid,
    /// 18 and 19 are said in words that speak of open locks, and not of takes.
    OldWords,
    /// 21 is explained with the units since the newest take of the lock.
    UnitsOfNewestTake,
    /// 21 is explained as if the first unlock of a lock had ended its section.
    UnitsSinceReturn,
    /// 19 and 22 are explained by the oldest take.
    OldestTake,
    /// The line of a job has no release.
    NoRelease,
    /// The spaces behind the items of such a line belong to them.
    SpacesKept,
    /// The items of such a line are words with any number of spaces between them.
    ItemsAsWords,
    /// The place of 25 in such a line counts from the line's start.
    PlaceInLine,
    /// What is wrong with items counts only where no line has another mistake.
    ItemsLast,
    /// The release of such a line takes some of the space for the job's events.
    ReleaseTakesSpace,
    /// A number of a job may have zeros in front.
    ZeroInFront,
    /// There may be more than one space between two items.
    SpaceTwice,
    /// A job may end with a space.
    SpaceAtEnd,
    /// There may be a space in a section without items.
    SpaceInEmpty,
    /// An item may follow a section without a space.
    NoSpaceAfterSection,
    /// The sections that are open at the text's end are closed there.
    OpenAtEnd,
    /// Nine sections may stand one in another.
    NinthSection,
    /// No more than seven may.
    SevenSections,
    /// A job has eight sections at most, wherever they stand.
    SectionsCounted,
    /// There may be a lock 32.
    Lock32,
    /// There may be 65,536 units, which are cut to their bytes.
    Units65536,
    /// A text without a byte is no job.
    EmptyRefused,
    /// No section of a lock stands in another one of it.
    AgainInJobRefused,
    /// 25 names the byte after the one that it should.
    PlaceOneLate,
    /// Where a job ends too soon, 25 names its last byte.
    PlaceOfLastByte,
    /// 26 is tested before 25.
    EventSpaceFirst,
    /// Each event wants five bytes of space.
    FiveBytes,
    /// 26 tells how many events there are.
    EventsBeside26,
    /// Beside 25 the events are laid down that the words up to the wrong one have.
    LaidBeside25,
    /// Beside 26 those events are laid down that there is space for.
    LaidBeside26,
    /// Every unlock of a job is of its outermost section.
    OutermostUnlocked,
    /// A job has no finish.
    NoFinish,
    /// The space after the events of a job is cleared.
    SpaceCleared,
}

/// What a way goes wrong about. All else is then as the rules have it, but that jobs stand
/// in texts too.
#[derive(Clone, Copy, PartialEq, Eq)]
pub enum Subject {
    /// To read or to write words.
    Words,
    /// To read jobs.
    Jobs,
    Others,
}

/// The wrong ways under the names of the command line.
pub const WRONG_WAYS: [(&str, Wrong); 106] = [
    ("tail", Wrong::Tail),
    ("at-or-above", Wrong::AtOrAbove),
    ("gives-way", Wrong::GivesWay),
    ("base", Wrong::Base),
    ("newest", Wrong::Newest),
    ("release-at-or-above", Wrong::ReleaseAtOrAbove),
    ("newcomer-runs", Wrong::NewcomerRuns),
    ("spared-by-one", Wrong::SparedByOne),
    ("no-17", Wrong::No17),
    ("no-20", Wrong::No20),
    ("delay-wraps", Wrong::DelayWraps),
    ("one-more-take", Wrong::OneMoreTake),
    ("kept-stays", Wrong::KeptStays),
    ("tick-leaves-kernel-word", Wrong::TickLeavesKernelWord),
    ("acquire-sets-kernel-word", Wrong::AcquireSetsKernelWord),
    ("release-leaves-kernel-word", Wrong::ReleaseLeavesKernelWord),
    ("call-leaves-kernel-word", Wrong::CallLeavesKernelWord),
    ("unlock-sets-kernel-word", Wrong::UnlockSetsKernelWord),
    ("kernel-word-before-switch", Wrong::KernelWordBeforeSwitch),
    ("kernel-word-at-or-above", Wrong::KernelWordAtOrAbove),
    ("same-again-uncounted", Wrong::SameAgainUncounted),
    ("kernel-word-unbounded", Wrong::KernelWordUnbounded),
    ("kernel-word-as-next", Wrong::KernelWordAsNext),
    ("spared-by-kernel-word", Wrong::SparedByKernelWord),
    ("units-at-first-return", Wrong::UnitsAtFirstReturn),
    ("owner-at-first-return", Wrong::OwnerAtFirstReturn),
    ("again-starts-anew", Wrong::AgainStartsAnew),
    ("charged-by-take", Wrong::ChargedByTake),
    ("locks-counted", Wrong::LocksCounted),
    ("again-refused", Wrong::AgainRefused),
    ("again-saves-nothing", Wrong::AgainSavesNothing),
    ("restores-at-once", Wrong::RestoresAtOnce),
    ("again-is-call", Wrong::AgainIsCall),
    ("in-part-is-call", Wrong::InPartIsCall),
    ("any-take-returned", Wrong::AnyTakeReturned),
    ("again-in-state-refused", Wrong::AgainInStateRefused),
    ("open-for-two-in-state", Wrong::OpenForTwoInState),
    ("every-lock-act", Wrong::EveryLockAct),
    ("acquires-alone", Wrong::AcquiresAlone),
    ("room-before-8", Wrong::RoomBefore8),
    ("byte-after", Wrong::ByteAfter),
    ("refusal-touches", Wrong::RefusalTouches),
    ("offset-off", Wrong::OffsetOff),
    ("one-user", Wrong::OneUser),
    ("one-user-in-state", Wrong::OneUserInState),
    ("three-users", Wrong::ThreeUsers),
    ("above-maximum-before-7", Wrong::AboveMaximumBefore7),
    ("above-maximum-after-8", Wrong::AboveMaximumAfter8),
    ("at-maximum", Wrong::AtMaximum),
    ("above-maximum-names-lock", Wrong::AboveMaximumNamesLock),
    ("maximum-one-below", Wrong::MaximumOneBelow),
    ("above-maximum-in-state", Wrong::AboveMaximumInState),
    ("below-base-in-state", Wrong::BelowBaseInState),
    ("fewer-tasks", Wrong::FewerTasks),
    ("fewer-uses", Wrong::FewerUses),
    ("one-more-task", Wrong::OneMoreTask),
    ("one-more-use", Wrong::OneMoreUse),
    ("lines-from-zero", Wrong::LinesFromZero),
    ("return-kept", Wrong::ReturnKept),
    ("comment-at-start-alone", Wrong::CommentAtStartAlone),
    ("tab-parts", Wrong::TabParts),
    ("last-unlimited", Wrong::LastUnlimited),
    ("word-too-many-passes", Wrong::WordTooManyPasses),
    ("zeros-refused", Wrong::ZerosRefused),
    ("last-mistake", Wrong::LastMistake),
    ("one-byte-fewer", Wrong::OneByteFewer),
    ("line-of-next", Wrong::LineOfNext),
    ("events-from-zero", Wrong::EventsFromZero),
    ("refused-twice", Wrong::RefusedTwice),
    ("waited-for-itself", Wrong::WaitedForItself),
    ("newest-passed", Wrong::NewestPassed),
    ("explained-by-second", Wrong::ExplainedBySecond),
    ("no-call-unsaid", Wrong::NoCallUnsaid),
    ("old-words", Wrong::OldWords),
    ("units-of-newest-take", Wrong::UnitsOfNewestTake),
    ("units-since-return", Wrong::UnitsSinceReturn),
    ("oldest-take", Wrong::OldestTake),
    ("no-release", Wrong::NoRelease),
    ("spaces-kept", Wrong::SpacesKept),
    ("items-as-words", Wrong::ItemsAsWords),
    ("place-in-line", Wrong::PlaceInLine),
    ("items-last", Wrong::ItemsLast),
    ("release-takes-space", Wrong::ReleaseTakesSpace),
    ("zero-in-front", Wrong::ZeroInFront),
    ("space-twice", Wrong::SpaceTwice),
    ("space-at-end", Wrong::SpaceAtEnd),
    ("space-in-empty", Wrong::SpaceInEmpty),
    ("no-space-after-section", Wrong::NoSpaceAfterSection),
    ("open-at-end", Wrong::OpenAtEnd),
    ("ninth-section", Wrong::NinthSection),
    ("seven-sections", Wrong::SevenSections),
    ("sections-counted", Wrong::SectionsCounted),
    ("lock-32", Wrong::Lock32),
    ("units-65536", Wrong::Units65536),
    ("empty-refused", Wrong::EmptyRefused),
    ("again-in-job-refused", Wrong::AgainInJobRefused),
    ("place-one-late", Wrong::PlaceOneLate),
    ("place-of-last-byte", Wrong::PlaceOfLastByte),
    ("event-space-first", Wrong::EventSpaceFirst),
    ("five-bytes", Wrong::FiveBytes),
    ("events-beside-26", Wrong::EventsBeside26),
    ("laid-beside-25", Wrong::LaidBeside25),
    ("laid-beside-26", Wrong::LaidBeside26),
    ("outermost-unlocked", Wrong::OutermostUnlocked),
    ("no-finish", Wrong::NoFinish),
    ("space-cleared", Wrong::SpaceCleared),
];

impl Wrong {
    /// The way of a scheduler by this protocol.
    pub fn of(self, protocol: Protocol) -> Wrong {
        if self.touches(protocol) {
            self
        } else {
            Wrong::Nothing
        }
    }

    /// Whether a scheduler by this protocol goes wrong: not in a way that is about
    /// the other protocol's word.
    pub fn touches(self, protocol: Protocol) -> bool {
        let only = match self {
            Wrong::SparedByOne => Protocol::Second,
            Wrong::TickLeavesKernelWord
            | Wrong::AcquireSetsKernelWord
            | Wrong::ReleaseLeavesKernelWord
            | Wrong::CallLeavesKernelWord
            | Wrong::UnlockSetsKernelWord
            | Wrong::KernelWordBeforeSwitch
            | Wrong::KernelWordAtOrAbove
            | Wrong::SameAgainUncounted
            | Wrong::SparedByKernelWord => Protocol::First,
            _ => return true,
        };
        only == protocol
    }

    pub fn subject(self) -> Subject {
        match self {
            Wrong::LinesFromZero
            | Wrong::ReturnKept
            | Wrong::CommentAtStartAlone
            | Wrong::TabParts
            | Wrong::LastUnlimited
            | Wrong::WordTooManyPasses
            | Wrong::ZerosRefused
            | Wrong::LastMistake
            | Wrong::OneByteFewer
            | Wrong::LineOfNext
            | Wrong::EventsFromZero
            | Wrong::RefusedTwice
            | Wrong::WaitedForItself
            | Wrong::NewestPassed
            | Wrong::ExplainedBySecond
            | Wrong::NoCallUnsaid
            | Wrong::OldWords
            | Wrong::UnitsOfNewestTake
            | Wrong::UnitsSinceReturn
            | Wrong::OldestTake
            | Wrong::NoRelease
            | Wrong::SpacesKept
            | Wrong::ItemsAsWords
            | Wrong::PlaceInLine
            | Wrong::ItemsLast
            | Wrong::ReleaseTakesSpace => Subject::Words,
            Wrong::ZeroInFront
            | Wrong::SpaceTwice
            | Wrong::SpaceAtEnd
            | Wrong::SpaceInEmpty
            | Wrong::NoSpaceAfterSection
            | Wrong::OpenAtEnd
            | Wrong::NinthSection
            | Wrong::SevenSections
            | Wrong::SectionsCounted
            | Wrong::Lock32
            | Wrong::Units65536
            | Wrong::EmptyRefused
            | Wrong::AgainInJobRefused
            | Wrong::PlaceOneLate
            | Wrong::PlaceOfLastByte
            | Wrong::EventSpaceFirst
            | Wrong::FiveBytes
            | Wrong::EventsBeside26
            | Wrong::LaidBeside25
            | Wrong::LaidBeside26
            | Wrong::OutermostUnlocked
            | Wrong::NoFinish
            | Wrong::SpaceCleared => Subject::Jobs,
            _ => Subject::Others,
        }
    }

    /// How many tasks, locks, uses and events a book has at most.
    pub fn most(self) -> [usize; 4] {
        let mut most = [MOST_TASKS, MOST_LOCKS, MOST_USES, MOST_EVENTS];
        match self {
            Wrong::FewerTasks => most[0] = 96,
            Wrong::FewerUses => most[2] = 3_072,
            Wrong::OneMoreTask => most[0] += 1,
            Wrong::OneMoreUse => most[2] += 1,
            _ => {}
        }
        most
    }

    /// How many users a lock of a book has at least.
    pub fn least_users(self) -> usize {
        match self {
            Wrong::OneUser => 1,
            Wrong::ThreeUsers => 3,
            _ => 2,
        }
    }

    /// The least maximum of a task of this base in a book.
    pub fn least_maximum(self, base: u8) -> u8 {
        match self {
            Wrong::MaximumOneBelow => base.saturating_sub(1),
            _ => base,
        }
    }

    /// Whether an acquire or an unlock is an eager call, by whether it changes
    /// the priority of the task that does it. One of several is an acquire of an open
    /// lock, and an unlock that leaves its lock open.
    pub fn counts(self, act: Event, changes: bool, is_one_of_several: bool) -> bool {
        let is_acquire = matches!(act, Event::Acquire(_));
        match self {
            Wrong::EveryLockAct => true,
            Wrong::AcquiresAlone => changes && is_acquire,
            Wrong::AgainIsCall => changes || (is_one_of_several && is_acquire),
            Wrong::InPartIsCall => changes || (is_one_of_several && !is_acquire),
            _ => changes,
        }
    }
}

pub fn from_name(name: &str) -> Option<Wrong> {
    WRONG_WAYS
        .iter()
        .find(|(known, _)| *known == name)
        .map(|(_, wrong)| *wrong)
}
