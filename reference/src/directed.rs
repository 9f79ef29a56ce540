//! Directed sessions: for each rule of docs/MODEL.md the situations in which it
//! applies and those beside it, where exactly one of its conditions is flipped
//! or a second rule applies too. They are made from tables, one subject a file,
//! and are the same every time. Most end by reading what may have changed.

mod back;
mod back_among;
mod back_counts;
mod back_input;
mod back_list;
mod back_mixed;
mod causes;
mod counters;
mod external;
mod fields;
mod flips;
mod icntr;
mod input;
mod overflow;
mod pmovs;
mod pmsicr;
mod pmsicr_stored;
mod pmsicr_words;
mod running;
mod sampling;
mod sampling_input;
mod sampling_start;
mod script;
mod short;
mod short_back;
mod short_input;
mod short_limits;
mod state;
mod swinc;
#[cfg(test)]
mod tests;
mod traps;
mod values;
mod words;
mod worked;

/// A session and the name of its file, without the ending.
pub struct Session {
    pub name: String,
    pub bytes: Vec<u8>,
}

impl Session {
    fn new(name: impl Into<String>, bytes: Vec<u8>) -> Session {
        Session { name: name.into(), bytes }
    }
}

/// All directed sessions.
pub fn all() -> Vec<Session> {
    let subjects = [
        input::sessions,
        values::sessions,
        state::sessions,
        flips::sessions,
        words::sessions,
        traps::sessions,
        icntr::sessions,
        causes::sessions,
        counters::sessions,
        swinc::sessions,
        external::sessions,
        overflow::sessions,
        pmovs::sessions,
        running::sessions,
        worked::sessions,
        pmsicr::sessions,
        pmsicr_words::sessions,
        pmsicr_stored::sessions,
        sampling::sessions,
        sampling_start::sessions,
        sampling_input::sessions,
        back::sessions,
        back_counts::sessions,
        back_list::sessions,
        back_mixed::sessions,
        back_among::sessions,
        back_input::sessions,
        short::sessions,
        short_back::sessions,
        short_input::sessions,
        short_limits::sessions,
    ];
    subjects.iter().flat_map(|sessions| sessions()).collect()
}
