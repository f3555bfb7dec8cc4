// Made by tools/plain-rust of crates/fax_tool/src/program.rt: change that.
//! The program over its words: all that it does but for gathering them.

use crate::args::{Job, parse_words};
use crate::input::{Input, NotOpened};
use crate::run::run;
use crate::streams::Sink;
use crate::streams::transfer::{RetryCount, write_all};
use kit_std::alloc::Global;

/// The status where no file could be opened.
const NOT_OPENED: u8 = 3;

/// Says on the error stream that the file was not opened.
// requires { E.counts err.old ≡ no_faults }
// ensures status { result ≡ 3 }
// ensures said { HasFailed (E.counts err.new)
//     ⊎ Appends (E.written err.old) (E.written err.new) (codes "fault: Open\n") }
fn say_not_opened<E: Sink>(err: &mut E) -> u8 {
    let mut interruptions = RetryCount::NONE;
    match write_all(err, &mut interruptions, "fault: Open\n".as_bytes()) {
        Ok(()) | Err(_) => NOT_OPENED,
    }
}

/// Opens the file that a job names, if it names one.
// requires taken { I.taken input.old ≡ 0 }
// requires counts { I.counts input.old ≡ no_faults }
// ensures bytes { OnOk result
//     (I.remaining input.new ≡ input_bytes (I.remaining input.old) (I.named input.old) job.now) }
// ensures taken { OnOk result (I.taken input.new ≡ 0) }
// ensures counts { OnOk result (I.counts input.new ≡ no_faults) }
// ensures refused { OnErr result (IsOfFile (I.refuses input.old) job.now) }
// ensures kept { OnErr result (I.remaining input.new ≡ I.remaining input.old) }
// ensures none_taken { OnErr result (I.taken input.new ≡ 0) }
// ensures unopened { OnErr result (I.counts input.new ≡ counts_unopened no_faults) }
// ensures same { job.now.file ≡ None → input.new ≡ input.old }
fn open_named<I: Input>(job: &Job, input: &mut I) -> Result<(), NotOpened> {
    match &job.file {
        Some(name) => input.open(name.as_str()),
        None => Ok(()),
    }
}

/// What the program does with its words: where they give a job, it opens the file that the job
/// names, if it names one, carries the job out and answers its status, 3 where the file is not
/// opened; and else it says on the error stream why they give none.
// requires taken { I.taken input.old ≡ 0 }
// requires input_counts { I.counts input.old ≡ no_faults }
// requires output_counts { W.counts out.old ≡ no_faults }
// requires error_counts { E.counts err.old ≡ no_faults }
// ensures status { result < 4 }
// ensures unread { AskForVersion (texts words.now) → input.new ≡ input.old }
// ensures written { result < 2 → RunsJob (texts words.now)
//     (inputs_after (I.remaining input.old) (I.named input.old) (I.taken input.new)
//     (I.counts input.new))
//     (λ command input. WritesText command input
//     (output_after (W.written out.old) (W.written out.new) (W.counts out.new))
//     (output_after (E.written err.old) (E.written err.new) (E.counts err.new)) result) }
// ensures said { result ≡ 2 → (input.new ≡ input.old) × (out.new ≡ out.old)
//     × SaysFault (texts words.now)
//     (output_after (E.written err.old) (E.written err.new) (E.counts err.new)) result }
// ensures refused { result ≡ 3 → ((input.new ≡ input.old) × (out.new ≡ out.old)
//     × SaysFault (texts words.now)
//     (output_after (E.written err.old) (E.written err.new) (E.counts err.new)) result)
//     ⊎ ((I.remaining input.new ≡ I.remaining input.old) × (out.new ≡ out.old)
//     × SaysNotOpened (texts words.now) (I.refuses input.old)
//     (input_after (I.remaining input.old) (I.taken input.new) (I.counts input.new))
//     (output_after (E.written err.old) (E.written err.new) (E.counts err.new)))
//     ⊎ RunsJob (texts words.now)
//     (inputs_after (I.remaining input.old) (I.named input.old) (I.taken input.new)
//     (I.counts input.new))
//     (λ command input. IsRefused command input
//     (output_after (W.written out.old) (W.written out.new) (W.counts out.new))
//     (output_after (E.written err.old) (E.written err.new) (E.counts err.new))) }
pub fn run_words<I: Input, W: Sink, E: Sink>(
    alloc: Global,
    words: &[&str],
    input: &mut I,
    out: &mut W,
    err: &mut E,
) -> u8 {
    let job = match parse_words(alloc, words) {
        Ok(job) => job,
        Err(fault) => return fault.say(words, err),
    };
    match open_named(&job, input) {
        Ok(()) => run(alloc, &job, input, out, err),
        Err(NotOpened) => say_not_opened(err),
    }
}
