//! Elements per level: which pairs each message lists at which level.

use crate::rules::{Inst, Kinds, Listed, Message};

const ALL: Kinds = Kinds(0b1_1110);
/// The kinds with a gateway on one side at least: S11, S4 and S5/S8.
const GATEWAYS: Kinds = Kinds(0b0_1110);
const S10: Kinds = Kinds(0b1_0000);
const S11_S4: Kinds = Kinds(0b0_0110);
const S11_S5: Kinds = Kinds(0b0_1010);
const S5: Kinds = Kinds(0b0_1000);

/// An optional pair that stands once, on all kinds that its message is on.
fn pair(typ: u8, inst: u8) -> Listed {
    Listed {
        typ,
        inst: Inst::Is(inst),
        mandatory: false,
        many: false,
        kinds: ALL,
        most: None,
        inside: Vec::new(),
    }
}

impl Listed {
    fn mandatory(self) -> Self {
        Self {
            mandatory: true,
            ..self
        }
    }

    fn many(self) -> Self {
        Self { many: true, ..self }
    }

    fn on(self, kinds: Kinds) -> Self {
        Self { kinds, ..self }
    }

    fn most(self, most: usize) -> Self {
        let most = Some(most);
        Self { most, ..self }
    }

    fn inside(self, inside: Vec<Listed>) -> Self {
        Self { inside, ..self }
    }
}

/// The private extension is last in every message body, and in no group. No line
/// is on a kind that its message is not on.
fn message(typ: u8, teid: bool, kinds: Kinds, mut body: Vec<Listed>) -> Message {
    let private_extension = Listed {
        inst: Inst::Any,
        ..pair(255, 0).many()
    };
    body.push(private_extension);
    confine(&mut body, kinds);
    Message {
        typ,
        teid,
        kinds,
        body,
    }
}

fn confine(listing: &mut [Listed], kinds: Kinds) {
    for listed in listing {
        listed.kinds.0 &= kinds.0;
        confine(&mut listed.inside, kinds);
    }
}

pub fn messages() -> Vec<Message> {
    vec![
        message(1, false, ALL, echo()),
        message(2, false, ALL, echo()),
        message(32, true, GATEWAYS, create_session_request()),
        message(37, true, GATEWAYS, delete_session_response()),
        message(66, true, GATEWAYS, delete_bearer_command()),
        message(67, true, GATEWAYS, delete_bearer_failure_indication()),
        message(68, true, GATEWAYS, bearer_resource_command()),
        message(69, true, GATEWAYS, bearer_resource_failure_indication()),
        message(97, true, GATEWAYS, update_bearer_request()),
        message(131, true, S10, context_response()),
    ]
}

fn echo() -> Vec<Listed> {
    vec![pair(3, 0).mandatory(), pair(152, 0)]
}

fn create_session_request() -> Vec<Listed> {
    vec![
        pair(1, 0),
        pair(76, 0),
        pair(75, 0),
        pair(86, 0),
        pair(83, 0),
        pair(82, 0).mandatory(),
        pair(77, 0),
        pair(87, 0).mandatory(),
        pair(87, 1),
        pair(71, 0).mandatory(),
        pair(128, 0),
        pair(99, 0),
        pair(79, 0),
        pair(127, 0),
        pair(72, 0),
        pair(78, 0),
        pair(93, 0).mandatory().many().inside(bearer_created()),
        pair(93, 1).many().inside(bearer_removed()),
        pair(96, 0),
        pair(3, 0),
        pair(132, 0),
        pair(132, 1),
    ]
}

/// 93/0 in message 32.
fn bearer_created() -> Vec<Listed> {
    vec![
        pair(73, 0).mandatory(),
        pair(84, 0),
        pair(84, 1),
        pair(87, 0),
        pair(87, 1),
        pair(87, 2),
        pair(80, 0).mandatory(),
        pair(95, 0),
        pair(97, 0),
    ]
}

/// 93/1 in message 32.
fn bearer_removed() -> Vec<Listed> {
    vec![pair(73, 0).mandatory(), pair(87, 1)]
}

fn delete_session_response() -> Vec<Listed> {
    vec![pair(2, 0).mandatory(), pair(3, 0), pair(78, 0)]
}

fn delete_bearer_command() -> Vec<Listed> {
    vec![
        pair(93, 0).mandatory().many().inside(bearer_deleted()),
        pair(86, 0),
        pair(170, 0),
        pair(114, 0),
        pair(180, 0).inside(overload()),
        pair(180, 1).on(S5).inside(overload()),
        pair(87, 0).on(S5),
        pair(201, 0).many().on(S11_S5),
    ]
}

/// 93/0 in message 66.
fn bearer_deleted() -> Vec<Listed> {
    vec![
        pair(73, 0).mandatory(),
        pair(97, 0),
        pair(172, 0).many().on(S11_S5),
    ]
}

/// 180/0 and 180/1 in message 66, 180/1 in message 67.
fn overload() -> Vec<Listed> {
    vec![
        pair(183, 0).mandatory(),
        pair(182, 0).mandatory(),
        pair(156, 0).mandatory(),
    ]
}

fn delete_bearer_failure_indication() -> Vec<Listed> {
    vec![
        pair(2, 0).mandatory(),
        pair(93, 0).mandatory().many().inside(bearer_failed()),
        pair(3, 0),
        pair(77, 0),
        pair(180, 0).many().inside(overload_with_apns()),
        pair(180, 1).on(S11_S4).inside(overload()),
    ]
}

/// 93/0 in message 67.
fn bearer_failed() -> Vec<Listed> {
    vec![pair(73, 0).mandatory(), pair(2, 0).mandatory()]
}

/// 180/0 in message 67.
fn overload_with_apns() -> Vec<Listed> {
    vec![
        pair(183, 0).mandatory(),
        pair(182, 0).mandatory(),
        pair(156, 0).mandatory(),
        pair(71, 0).many().most(10),
    ]
}

fn bearer_resource_command() -> Vec<Listed> {
    vec![
        pair(73, 0),
        pair(2, 0),
        pair(100, 0).mandatory(),
        pair(81, 0),
        pair(85, 0).mandatory(),
    ]
}

fn bearer_resource_failure_indication() -> Vec<Listed> {
    vec![
        pair(2, 0).mandatory(),
        pair(73, 0),
        pair(73, 1),
        pair(100, 0).mandatory(),
        pair(3, 0),
    ]
}

fn update_bearer_request() -> Vec<Listed> {
    vec![
        pair(1, 0).mandatory(),
        pair(93, 0).mandatory().many().inside(bearer_updated()),
        pair(100, 0),
        pair(78, 0),
        pair(72, 0).mandatory(),
        pair(96, 0),
        pair(132, 2),
        pair(132, 1),
    ]
}

/// 93/0 in message 97.
fn bearer_updated() -> Vec<Listed> {
    vec![
        pair(73, 0).mandatory(),
        pair(84, 0),
        pair(84, 1),
        pair(80, 0),
        pair(95, 0),
        pair(94, 0),
    ]
}

fn context_response() -> Vec<Listed> {
    vec![
        pair(2, 0).mandatory(),
        pair(1, 0),
        pair(103, 0),
        pair(104, 0),
        pair(105, 0),
        pair(106, 0),
        pair(107, 0),
        pair(108, 0),
        pair(109, 0).many().inside(pdn_connection()),
        pair(87, 0),
        pair(87, 1),
        pair(136, 0),
        pair(77, 0),
    ]
}

/// 109/0 in message 131.
fn pdn_connection() -> Vec<Listed> {
    vec![
        pair(71, 0).mandatory(),
        pair(127, 0),
        pair(128, 0),
        pair(74, 0),
        pair(74, 1),
        pair(73, 0).mandatory(),
        pair(87, 0).mandatory(),
        pair(136, 0),
        pair(93, 0).mandatory().many().inside(bearer_handed_over()),
        pair(72, 0).mandatory(),
    ]
}

/// 93/0 in the 109/0 of message 131.
fn bearer_handed_over() -> Vec<Listed> {
    vec![
        pair(73, 0).mandatory(),
        pair(84, 0),
        pair(87, 0),
        pair(87, 1),
        pair(80, 0).mandatory(),
    ]
}
