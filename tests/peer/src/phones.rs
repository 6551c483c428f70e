//! The desk phones of request Q-7: the parking endpoint of H.450.5, clause 7.1, and the parked endpoint, clause
//! 7.2, each a machine of one call.
//!
//! Above each row stand the words of the clause that name the step, or the rule of the house. Where no row fits,
//! the clause names no step for that event in that state. The held call is the parked call, from the parked to the
//! parked-to endpoint; the picker's call is the new one, from the parked to the picking-up endpoint.

/// The value of a Return Error as clause 11 has it: 2000 callPickupIdInvalid, 2001 callAlreadyPickedUp, 2002
/// undefined. Others go as they come.
#[derive(Clone, Copy, PartialEq, Eq, Debug)]
pub struct ErrorValue(pub u16);

impl ErrorValue {
    /// House: of a Reject, an expiry and a clearing, which bring no value.
    pub const UNDEFINED: ErrorValue = ErrorValue(2002);

    /// The value on the wire of a house number of document 01, "Events": "Errors (house numbers): 0 none, 1
    /// undefined, 2 callAlreadyPickedUp". The values are those of the names in H.450.5, clause 11. None is no
    /// error, and no other number is one of the house.
    pub fn of_house_number(number: u8) -> Option<ErrorValue> {
        match number {
            1 => Some(ErrorValue(2002)),
            2 => Some(ErrorValue(2001)),
            _ => None,
        }
    }
}

/// The states of both machines, with the words of clause 10.3. CP-Idle is a state of either.
#[derive(Clone, Copy, PartialEq, Eq, PartialOrd, Ord, Debug, Default)]
pub enum PhoneState {
    #[default]
    Idle,
    Requested,
    SetupRequ,
    PickupSetupInit,
}

impl PhoneState {
    /// Clause 10.3.1.
    pub const PARKING: [PhoneState; 2] = [PhoneState::Idle, PhoneState::Requested];
    /// Clause 10.3.2.
    pub const PARKED: [PhoneState; 3] = [PhoneState::Idle, PhoneState::SetupRequ, PhoneState::PickupSetupInit];

    pub fn name(self) -> &'static str {
        match self {
            PhoneState::Idle => "CP-Idle",
            PhoneState::Requested => "CP-Requested",
            PhoneState::SetupRequ => "CP-SetupRequ",
            PhoneState::PickupSetupInit => "CpickupSetupInit",
        }
    }
}

#[derive(Clone, Copy, PartialEq, Eq, Debug)]
pub enum PhoneTimer {
    T1,
    T2,
    T10,
}

/// What the parking endpoint meets.
#[derive(Clone, Copy, PartialEq, Eq, Debug)]
pub enum ParkingEvent {
    /// The user's. It is accepted where the call is active (U10), not held (8.2.2) and no such conference as 8.2.4
    /// forbids to park.
    ParkRequest {
        accepted: bool,
    },
    /// In RELEASE COMPLETE.
    RequestResult,
    RequestError(ErrorValue),
    RequestReject,
    /// Without a cpRequest Return Result, Return Error or Reject.
    PrimaryCleared,
    ExpiryOfT1,
}

/// Whether a request of another endpoint is accepted, which comes with it.
#[derive(Clone, Copy, PartialEq, Eq, Debug)]
pub enum Verdict {
    Accepted,
    TurnedDown(ErrorValue),
}

/// What the parked endpoint meets.
#[derive(Clone, Copy, PartialEq, Eq, Debug)]
pub enum ParkedEvent {
    RequestInvoke(Verdict),
    /// In PROGRESS.
    SetupResult,
    SetupError(ErrorValue),
    SetupReject,
    PrimaryCleared,
    /// Without a cpSetup error.
    ParkedCleared,
    PickupInConnect(Verdict),
    PickupInFacility(Verdict),
    /// In CONNECT.
    PickExeResult,
    /// Not in RELEASE COMPLETE, as the next.
    PickExeError(ErrorValue),
    PickExeReject,
    /// In RELEASE COMPLETE, as the next.
    PickExeErrorInRelease(ErrorValue),
    PickExeRejectInRelease,
    /// With no APDU.
    PickerCleared,
    ConnectAlone,
    ExpiryOfT2,
    ExpiryOfT10,
}

/// What a phone sends.
#[derive(Clone, Copy, PartialEq, Eq, Debug)]
pub enum PhoneMessage {
    RequestInvokeInFacility,
    RequestResultInRelease,
    RequestErrorInFacility(ErrorValue),
    SetupWithInvoke,
    PickupResultInFacility,
    PickupErrorInFacility(ErrorValue),
    PickupErrorInRelease(ErrorValue),
    SetupWithPickExe,
    ReleaseOfHeldCall,
    ReleaseOfPickersCall,
}

/// What the phone's own user learns: the outcomes that have a confirm primitive in clause 10.2, which are
/// cpRequest.Confirm at the parking endpoint, cpSetup.Confirm and pickExe.Confirm at the parked endpoint.
#[derive(Clone, Copy, PartialEq, Eq, Debug)]
pub enum PhoneReport {
    /// Locally.
    Rejected,
    Success,
    Error(ErrorValue),
}

/// What a clause has a phone do.
#[derive(Clone, Copy, PartialEq, Eq, Debug, Default)]
pub struct PhoneStep {
    /// The state that is entered, or kept.
    pub state: PhoneState,
    /// In the order in which they are sent.
    pub messages: [Option<PhoneMessage>; 2],
    pub told: Option<PhoneReport>,
    pub started: Option<PhoneTimer>,
    /// An expired timer too is named here by the step that its expiry brings about.
    pub stopped: Option<PhoneTimer>,
}

impl PhoneStep {
    fn to(state: PhoneState) -> PhoneStep {
        PhoneStep { state, ..PhoneStep::default() }
    }

    fn send(mut self, message: PhoneMessage) -> PhoneStep {
        self.messages[0] = Some(message);
        self
    }

    fn then_send(mut self, message: PhoneMessage) -> PhoneStep {
        self.messages[1] = Some(message);
        self
    }

    fn tell(mut self, told: PhoneReport) -> PhoneStep {
        self.told = Some(told);
        self
    }

    fn start(mut self, timer: PhoneTimer) -> PhoneStep {
        self.started = Some(timer);
        self
    }

    fn stop(mut self, timer: PhoneTimer) -> PhoneStep {
        self.stopped = Some(timer);
        self
    }
}

/// Clause 7.1. Nothing is given where it names no step.
pub fn parking_step(state: PhoneState, event: ParkingEvent) -> Option<PhoneStep> {
    match state {
        PhoneState::Idle => parking_idle(event),
        PhoneState::Requested => parking_requested(event),
        PhoneState::SetupRequ | PhoneState::PickupSetupInit => None,
    }
}

fn parking_idle(event: ParkingEvent) -> Option<PhoneStep> {
    match event {
        // "When receiving an SS-PARK request from the Parking User A while in H.225.0 call control state "active"
        // (U10), the parking endpoint A shall send a FACILITY message containing a cpRequest Invoke APDU to the
        // parked endpoint B, enter state CP-Requested and start timer T1."
        ParkingEvent::ParkRequest { accepted: true } => Some(
            PhoneStep::to(PhoneState::Requested).send(PhoneMessage::RequestInvokeInFacility).start(PhoneTimer::T1),
        ),
        // "When receiving a local SS-PARK request from the Parking User A while in a H.225.0 call control state
        // different from "active", the parking endpoint shall locally reject the supplementary service request."
        // 8.2.2: "the SS-PARK request shall be rejected locally."
        ParkingEvent::ParkRequest { accepted: false } => {
            Some(PhoneStep::to(PhoneState::Idle).tell(PhoneReport::Rejected))
        }
        // Nothing was requested, and T1 does not run.
        ParkingEvent::RequestResult => None,
        ParkingEvent::RequestError(_) => None,
        ParkingEvent::RequestReject => None,
        ParkingEvent::PrimaryCleared => None,
        ParkingEvent::ExpiryOfT1 => None,
    }
}

fn parking_requested(event: ParkingEvent) -> Option<PhoneStep> {
    let end = |told| Some(PhoneStep::to(PhoneState::Idle).tell(told).stop(PhoneTimer::T1));
    match event {
        // House: no second request, whether accepted or not.
        ParkingEvent::ParkRequest { .. } => None,
        // "Upon receipt of a cpRequest Return Result APDU, the parking endpoint shall enter state CP-Idle and stop
        // timer T1."
        ParkingEvent::RequestResult => end(PhoneReport::Success),
        // "In the case of an unsuccessful outcome of SS-PARK (at the parked or parked-to endpoint), a cpRequest
        // Return Error APDU or a Reject APDU shall be received from parked endpoint B within a FACILITY message
        // reporting the reason for the unsuccessful outcome. Timer T1 shall be stopped and state CP-Idle shall be
        // entered. The call between user A and user B shall continue." And: "An unsuccessful outcome of SS-PARK
        // shall be reported to the Parking User."
        ParkingEvent::RequestError(value) => end(PhoneReport::Error(value)),
        // The same words; house: the value is undefined.
        ParkingEvent::RequestReject => end(PhoneReport::Error(ErrorValue::UNDEFINED)),
        // No words.
        ParkingEvent::PrimaryCleared => None,
        // "In the case of timer T1 expiry, the parking endpoint shall enter state CP-Idle and continue the call
        // with user B." It is an unsuccessful outcome, and reported; house: the value is undefined.
        ParkingEvent::ExpiryOfT1 => end(PhoneReport::Error(ErrorValue::UNDEFINED)),
    }
}

/// Clause 7.2. Nothing is given where it names no step.
pub fn parked_step(state: PhoneState, event: ParkedEvent) -> Option<PhoneStep> {
    match state {
        PhoneState::Idle => parked_idle(event),
        PhoneState::SetupRequ => parked_setup_requ(event),
        PhoneState::PickupSetupInit => parked_pickup_setup_init(event),
        PhoneState::Requested => None,
    }
}

fn parked_idle(event: ParkedEvent) -> Option<PhoneStep> {
    match event {
        // "If possible, it shall use the parkedToNumber received within the cpRequest Invoke APDU to establish the
        // parked call to the parked-to endpoint. The SETUP message sent towards the parked-to endpoint shall
        // contain a cpSetup Invoke APDU [...]. State CP-SetupRequ shall be entered and optional Timer T2 may be
        // started at parked endpoint B." Q-7: "We always start T2."
        ParkedEvent::RequestInvoke(Verdict::Accepted) => {
            Some(PhoneStep::to(PhoneState::SetupRequ).send(PhoneMessage::SetupWithInvoke).start(PhoneTimer::T2))
        }
        // "On receipt of a cpRequest Invoke APDU from parking endpoint A, if the parked endpoint B cannot
        // participate in the SS-PARK, a cpRequest Return Error APDU or a Reject APDU shall be returned within a
        // FACILITY message from the parked endpoint B to parking endpoint A."
        ParkedEvent::RequestInvoke(Verdict::TurnedDown(value)) => {
            Some(PhoneStep::to(PhoneState::Idle).send(PhoneMessage::RequestErrorInFacility(value)))
        }
        // "If the parked call is cleared while in state CP-Idle (i.e. after cpSetup Return Result APDU has been
        // received), the parking endpoint may be recalled." House: it is not, and there is nothing to do.
        ParkedEvent::ParkedCleared => Some(PhoneStep::to(PhoneState::Idle)),
        // "A pickup Invoke APDU may be received within a CONNECT message from the parked-to endpoint. If supported
        // and allowed, the calling endpoint shall return a pickup Return Result APDU within a FACILITY message."
        ParkedEvent::PickupInConnect(Verdict::Accepted) => {
            Some(PhoneStep::to(PhoneState::Idle).send(PhoneMessage::PickupResultInFacility))
        }
        // "If the SS-PICKUP request cannot be accepted by the parked endpoint, a pickup Return Error APDU or a
        // Reject APDU shall be returned to the parked-to endpoint within a RELEASE COMPLETE message."
        ParkedEvent::PickupInConnect(Verdict::TurnedDown(value)) => {
            Some(PhoneStep::to(PhoneState::Idle).send(PhoneMessage::PickupErrorInRelease(value)))
        }
        // "A pickup Invoke APDU may be received within a FACILITY message, requesting to reestablish the call to
        // the picking-up endpoint. If supported and allowed, the parked endpoint shall return a pickup Return
        // Result APDU." Then: "If SS-PICKUP is allowed and possible for this call, the parked endpoint shall
        // initiate call establishment (sending a SETUP message) to the picking-up endpoint containing a pickExe
        // Invoke APDU. [...] Timer T10 shall be started and state CpickupSetupInit shall be entered." House: the
        // result goes in FACILITY.
        ParkedEvent::PickupInFacility(Verdict::Accepted) => Some(
            PhoneStep::to(PhoneState::PickupSetupInit)
                .send(PhoneMessage::PickupResultInFacility)
                .then_send(PhoneMessage::SetupWithPickExe)
                .start(PhoneTimer::T10),
        ),
        // "Otherwise, a pickup Return Error APDU or a Reject APDU shall be returned to the parked-to endpoint."
        // House: in FACILITY.
        ParkedEvent::PickupInFacility(Verdict::TurnedDown(value)) => {
            Some(PhoneStep::to(PhoneState::Idle).send(PhoneMessage::PickupErrorInFacility(value)))
        }
        // The rest belongs to a parked call that is being set up, to a picker's call, or to the basic call alone.
        ParkedEvent::SetupResult => None,
        ParkedEvent::SetupError(_) => None,
        ParkedEvent::SetupReject => None,
        ParkedEvent::PrimaryCleared => None,
        ParkedEvent::PickExeResult => None,
        ParkedEvent::PickExeError(_) => None,
        ParkedEvent::PickExeReject => None,
        ParkedEvent::PickExeErrorInRelease(_) => None,
        ParkedEvent::PickExeRejectInRelease => None,
        ParkedEvent::PickerCleared => None,
        ParkedEvent::ConnectAlone => None,
        ParkedEvent::ExpiryOfT2 => None,
        ParkedEvent::ExpiryOfT10 => None,
    }
}

fn parked_setup_requ(event: ParkedEvent) -> Option<PhoneStep> {
    let end = || PhoneStep::to(PhoneState::Idle).stop(PhoneTimer::T2);
    let end_with_error =
        |value| Some(end().send(PhoneMessage::RequestErrorInFacility(value)).tell(PhoneReport::Error(value)));
    match event {
        // House: no second request, whether accepted or not.
        ParkedEvent::RequestInvoke(_) => None,
        // "Upon receiving a PROGRESS message with a cpSetup Return Result APDU from the parked-to endpoint, parked
        // endpoint B shall stop timer T2, (if running) send a RELEASE COMPLETE message containing cpRequest Return
        // Result APDU to parking endpoint A and enter state CP-Idle."
        ParkedEvent::SetupResult => {
            Some(end().send(PhoneMessage::RequestResultInRelease).tell(PhoneReport::Success))
        }
        // "If a cpSetup Return Error APDU or Reject APDU was received from the parked-to endpoint, the same error
        // value shall be sent in the cpRequest Return Error APDU from the parked endpoint B to parking endpoint A."
        // "An error from the parked-to side goes to the parking side with the same value."
        ParkedEvent::SetupError(value) => end_with_error(value),
        // The same words; house: the value is undefined.
        ParkedEvent::SetupReject => end_with_error(ErrorValue::UNDEFINED),
        // "If the primary call is cleared while in state CP-SetupRequ, the parked endpoint shall stop timer T2 if
        // running, clear the parked call and enter state CP-Idle." House: nobody is told, as the phone itself gives it up.
        ParkedEvent::PrimaryCleared => Some(end().send(PhoneMessage::ReleaseOfHeldCall)),
        // "[...] on receipt of a call clearing indication of the parked call while in state CP-SetupRequ, the
        // parked endpoint shall send a cpRequest Return Error APDU to parking endpoint A in a FACILITY message,
        // stop timer T2 if running and enter state CP-Idle." House: the value is undefined.
        ParkedEvent::ParkedCleared => end_with_error(ErrorValue::UNDEFINED),
        // "On expiry of timer T2 at parked endpoint B, [...] the parked endpoint shall send a cpRequest Return
        // Error APDU to parking endpoint A in a FACILITY message, stop timer T2 if running and enter state
        // CP-Idle." House: the value is undefined, and nothing else is sent.
        ParkedEvent::ExpiryOfT2 => end_with_error(ErrorValue::UNDEFINED),
        // House: a pickup comes only to an idle phone.
        ParkedEvent::PickupInConnect(_) => None,
        ParkedEvent::PickupInFacility(_) => None,
        // There is no picker's call.
        ParkedEvent::PickExeResult => None,
        ParkedEvent::PickExeError(_) => None,
        ParkedEvent::PickExeReject => None,
        ParkedEvent::PickExeErrorInRelease(_) => None,
        ParkedEvent::PickExeRejectInRelease => None,
        ParkedEvent::PickerCleared => None,
        ParkedEvent::ConnectAlone => None,
        ParkedEvent::ExpiryOfT10 => None,
    }
}

fn parked_pickup_setup_init(event: ParkedEvent) -> Option<PhoneStep> {
    let end = |told| PhoneStep::to(PhoneState::Idle).stop(PhoneTimer::T10).tell(told);
    let end_and_release = |value| Some(end(PhoneReport::Error(value)).send(PhoneMessage::ReleaseOfPickersCall));
    match event {
        // "If a pickExe Return Result APDU is received in a CONNECT message from the picking-up endpoint while in
        // state CpickupSetupInit, timer T10 shall be stopped and state CP-Idle shall be entered. The parked call to
        // the parked-to endpoint shall be released."
        ParkedEvent::PickExeResult => Some(end(PhoneReport::Success).send(PhoneMessage::ReleaseOfHeldCall)),
        // "If a pickExe Return Error APDU or a Reject APDU is received from the picking-up endpoint, the parked
        // endpoint shall stop Timer T10, release the call to the picking-up endpoint (if not already released), and
        // enter state CP-Idle."
        ParkedEvent::PickExeError(value) => end_and_release(value),
        // The same words; house: the value is undefined.
        ParkedEvent::PickExeReject => end_and_release(ErrorValue::UNDEFINED),
        // The same words: "if not already released", and it is.
        ParkedEvent::PickExeErrorInRelease(value) => Some(end(PhoneReport::Error(value))),
        ParkedEvent::PickExeRejectInRelease => Some(end(PhoneReport::Error(ErrorValue::UNDEFINED))),
        // "Expiry of T10 (house) acts as a pickExe error." House: as one that was not in RELEASE COMPLETE, and
        // the value is undefined.
        ParkedEvent::ExpiryOfT10 => end_and_release(ErrorValue::UNDEFINED),
        // No words for the clearing of either call, nor for a CONNECT that says nothing.
        ParkedEvent::ParkedCleared => None,
        ParkedEvent::PickerCleared => None,
        ParkedEvent::ConnectAlone => None,
        // House: no second pickup, whether accepted or not.
        ParkedEvent::PickupInConnect(_) => None,
        ParkedEvent::PickupInFacility(_) => None,
        // House: a cpRequest comes only to an idle phone.
        ParkedEvent::RequestInvoke(_) => None,
        // The park is over, and the primary call with it.
        ParkedEvent::SetupResult => None,
        ParkedEvent::SetupError(_) => None,
        ParkedEvent::SetupReject => None,
        ParkedEvent::PrimaryCleared => None,
        ParkedEvent::ExpiryOfT2 => None,
    }
}

#[cfg(test)]
mod tests {
    use super::*;

    const VALUE: ErrorValue = ErrorValue(777);

    const PARKING_EVENTS: [ParkingEvent; 7] = [
        ParkingEvent::ParkRequest { accepted: true },
        ParkingEvent::ParkRequest { accepted: false },
        ParkingEvent::RequestResult,
        ParkingEvent::RequestError(VALUE),
        ParkingEvent::RequestReject,
        ParkingEvent::PrimaryCleared,
        ParkingEvent::ExpiryOfT1,
    ];

    const PARKED_EVENTS: [ParkedEvent; 20] = [
        ParkedEvent::RequestInvoke(Verdict::Accepted),
        ParkedEvent::RequestInvoke(Verdict::TurnedDown(VALUE)),
        ParkedEvent::SetupResult,
        ParkedEvent::SetupError(VALUE),
        ParkedEvent::SetupReject,
        ParkedEvent::PrimaryCleared,
        ParkedEvent::ParkedCleared,
        ParkedEvent::PickupInConnect(Verdict::Accepted),
        ParkedEvent::PickupInConnect(Verdict::TurnedDown(VALUE)),
        ParkedEvent::PickupInFacility(Verdict::Accepted),
        ParkedEvent::PickupInFacility(Verdict::TurnedDown(VALUE)),
        ParkedEvent::PickExeResult,
        ParkedEvent::PickExeError(VALUE),
        ParkedEvent::PickExeReject,
        ParkedEvent::PickExeErrorInRelease(VALUE),
        ParkedEvent::PickExeRejectInRelease,
        ParkedEvent::PickerCleared,
        ParkedEvent::ConnectAlone,
        ParkedEvent::ExpiryOfT2,
        ParkedEvent::ExpiryOfT10,
    ];

    #[test]
    fn two_house_numbers_have_a_value_on_the_wire() {
        let valued = (0..=255).filter_map(|number| Some((number, ErrorValue::of_house_number(number)?.0)));
        assert_eq!(valued.collect::<Vec<(u8, u16)>>(), [(1, 2002), (2, 2001)]);
    }

    /// Clause 10.4: the timer that runs in each state.
    fn timer_of(state: PhoneState) -> Option<PhoneTimer> {
        match state {
            PhoneState::Idle => None,
            PhoneState::Requested => Some(PhoneTimer::T1),
            PhoneState::SetupRequ => Some(PhoneTimer::T2),
            PhoneState::PickupSetupInit => Some(PhoneTimer::T10),
        }
    }

    /// What runs after the step, by what it says that it stops and starts. Only what runs can be stopped, and only
    /// what does not run can be started.
    fn running_after(before: Option<PhoneTimer>, step: &PhoneStep) -> Option<PhoneTimer> {
        if step.stopped.is_some() {
            assert_eq!(step.stopped, before, "{step:?}");
        }
        let left = if step.stopped.is_some() { None } else { before };
        if step.started.is_some() {
            assert_eq!(left, None, "{step:?}");
        }
        step.started.or(left)
    }

    /// "a timer runs exactly in the state that names it."
    #[test]
    fn a_timer_runs_exactly_in_the_state_that_names_it() {
        let parking = PhoneState::PARKING
            .into_iter()
            .flat_map(|state| PARKING_EVENTS.map(|event| (state, parking_step(state, event))));
        let parked = PhoneState::PARKED
            .into_iter()
            .flat_map(|state| PARKED_EVENTS.map(|event| (state, parked_step(state, event))));
        let mut steps = 0;
        for (before, step) in parking.chain(parked) {
            let Some(step) = step else { continue };
            assert_eq!(running_after(timer_of(before), &step), timer_of(step.state), "{before:?} {step:?}");
            steps += 1;
        }
        assert_eq!(steps, 6 + 19);
    }

    #[test]
    fn a_machine_stays_within_its_own_states() {
        for state in PhoneState::PARKING {
            let steps = PARKING_EVENTS.map(|event| parking_step(state, event));
            assert!(steps.into_iter().flatten().all(|step| PhoneState::PARKING.contains(&step.state)));
        }
        for state in PhoneState::PARKED {
            let steps = PARKED_EVENTS.map(|event| parked_step(state, event));
            assert!(steps.into_iter().flatten().all(|step| PhoneState::PARKED.contains(&step.state)));
        }
    }
}
