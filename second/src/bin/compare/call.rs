//! The eight calls of the library.

#[derive(Clone, Copy, PartialEq, Eq)]
pub enum Call {
    Read,
    Preempts,
    Races,
    Illegal,
    Thresholds,
    Fresh,
    Step,
    Listing,
}

impl Call {
    /// In the order of the numbers that they have in a request.
    pub const ALL: [Call; 8] = [
        Call::Read,
        Call::Preempts,
        Call::Races,
        Call::Illegal,
        Call::Thresholds,
        Call::Fresh,
        Call::Step,
        Call::Listing,
    ];

    pub fn name(self) -> &'static str {
        match self {
            Call::Read => "read",
            Call::Preempts => "preempts",
            Call::Races => "races",
            Call::Illegal => "illegal",
            Call::Thresholds => "thresholds",
            Call::Fresh => "fresh",
            Call::Step => "step",
            Call::Listing => "listing",
        }
    }

    pub fn named(name: &str) -> Result<Call, String> {
        let all = Call::ALL;
        let known = || all.map(Call::name).join(", ");
        let found = all.into_iter().find(|call| call.name() == name);
        found.ok_or_else(|| format!("{name} is no call; the calls are {}", known()))
    }
}
