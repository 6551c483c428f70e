//! What has become of the requests in one stream.

use peer::{Asked, Given, Lamps, Member, Place, Reply, Request, Settled, Table};

/// A request that is no longer waited for.
#[derive(Clone, Copy)]
pub struct Gone {
    pub request: Request,
    /// By the next request there, before the member replied.
    replaced: bool,
}

pub struct History {
    /// By place and member, the last one.
    gone: [[Option<Gone>; Lamps::MEMBERS]; Table::PLACES],
    /// By place: the last reply that settled a request there.
    pub settled_at: [Option<Reply>; Table::PLACES],
    /// The reply before this one, if it settled a request.
    pub last_settled: Option<Reply>,
    /// Where a request was last settled.
    pub last_place: Option<u16>,
}

impl Default for History {
    fn default() -> History {
        History {
            gone: [[None; Lamps::MEMBERS]; Table::PLACES],
            settled_at: [None; Table::PLACES],
            last_settled: None,
            last_place: None,
        }
    }
}

impl History {
    pub fn gone(&self, place: Place, member: Member) -> Option<Gone> {
        self.gone[usize::from(place.0) - 1][usize::from(member.0) - 1]
    }

    /// Whether the reply names one that is no longer waited for, and that went in this way.
    pub fn is_gone(&self, reply: &Reply, replaced: bool) -> bool {
        let member = usize::from(reply.member.0) - 1;
        let mut gone = self.gone.iter().filter_map(|members| members[member]);
        gone.any(|gone| gone.request == reply.request && gone.replaced == replaced)
    }

    /// After each line.
    pub fn note(&mut self, asked: &Asked, given: &Given) {
        match (asked, given) {
            (_, Given::Answer(_, Some(notices))) => {
                let members = &mut self.gone[usize::from(notices[0].place.0) - 1];
                for (gone, notice) in members.iter_mut().zip(notices.iter()) {
                    *gone = notice.replaced.map(|request| Gone { request, replaced: true }).or(*gone);
                }
            }
            (Asked::Reply(reply), Given::Settled(Ok(Settled { place, .. }))) => {
                let (index, member) = (usize::from(place.0) - 1, usize::from(reply.member.0) - 1);
                self.gone[index][member] = Some(Gone { request: reply.request, replaced: false });
                self.settled_at[index] = Some(*reply);
                (self.last_settled, self.last_place) = (Some(*reply), Some(place.0));
            }
            (Asked::Reply(_), _) => self.last_settled = None,
            _ => {}
        }
    }
}
