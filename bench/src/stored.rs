//! The sectors that a call of the library stores, one by one. The call is made
//! on copies of the volume with budgets 0, 1, 2 and so on: one budget and the
//! next differ in one store, and the sector that differs is the one stored.

use crate::call::Call;
use crate::reply::Reply;
use crate::side::Side;

const SECTOR: usize = 256;

/// Makes the call with the budget that it has, which must be enough. The
/// reply, and the sectors in the order of their stores. Each store must change
/// a byte, or it isn't seen.
pub fn stored(call: &Call, volume: &mut [u8]) -> (Reply, Vec<usize>) {
    let mut sectors = Vec::new();
    let (mut reply, mut bytes) = with_budget(call, volume, 0);
    assert!(bytes == volume, "{call:?} changes bytes without a store");
    while is_cut(reply) {
        let next = with_budget(call, volume, sectors.len() + 1);
        sectors.push(only_difference(&bytes, &next.1));
        (reply, bytes) = next;
    }
    let whole = Side::Library.make(call, volume, &mut []);
    assert!(whole == reply && bytes == volume, "{call:?} makes other stores with its own budget");
    (reply, sectors)
}

/// The reply to the call with this budget, and the bytes that it leaves. It
/// makes as many stores as the budget allows.
fn with_budget(call: &Call, volume: &[u8], budget: usize) -> (Reply, Vec<u8>) {
    let mut bytes = volume.to_vec();
    let call = call.with_budget(u8::try_from(budget).expect("a budget"));
    let reply = Side::Library.make(&call, &mut bytes, &mut []);
    assert!(reply.kind() <= 1, "{call:?} is refused: {reply:?}");
    assert!(reply.number() == budget as u64, "{call:?} has another count of stores: {reply:?}");
    (reply, bytes)
}

fn is_cut(reply: Reply) -> bool {
    reply.kind() == 1
}

/// The one sector in which the arrays differ.
fn only_difference(before: &[u8], after: &[u8]) -> usize {
    let sectors = before.chunks(SECTOR).zip(after.chunks(SECTOR));
    let mut differing = sectors.enumerate().filter(|(_, (before, after))| before != after).map(|(sector, _)| sector);
    let sector = differing.next().expect("a store that changes a byte");
    assert!(differing.next().is_none(), "one store changes two sectors");
    sector
}

#[cfg(test)]
mod tests {
    use super::*;
    use crate::call::Function;
    use crate::place::small;
    use crate::stage::{self, Stage, BUDGET};
    use model::reply::RawSession;

    /// The small volume, with the writes of E2 made by client 2: records in 1
    /// and 2, headers in 3 and 7, the pages in 6 and 9.
    fn written() -> Stage {
        small().written(1, &small().writes)
    }

    /// The session, and the sectors.
    fn stored_by(call: &Call, stage: &Stage) -> (RawSession, Vec<usize>) {
        let (reply, sectors) = stored(call, &mut stage.volume.clone());
        assert_eq!((reply.kind(), reply.number()), (0, sectors.len() as u64));
        (reply.session(), sectors)
    }

    fn of_client(function: Function, bytes: &[u8]) -> Call {
        written().call(function, &[&[2], bytes, &[BUDGET]].concat())
    }

    const NEW: RawSession = RawSession::of_marks(0);
    const OF_2: RawSession = RawSession::of_marks(2);

    #[test]
    fn sectors_are_found_in_the_order_of_their_stores() {
        assert_eq!(stored_by(&of_client(Function::Commit, &[]), &written()), (NEW, vec![2, 3, 7, 2]));
        assert_eq!(stored_by(&of_client(Function::Abort, &[]), &written()), (NEW, vec![3, 7, 2]));
        let opened = small().written(1, &[]);
        let write = |file| stage::write(opened.session, 2, file, 0);
        assert_eq!(stored_by(&write(1), &opened), (OF_2, vec![6, 2]));
        assert_eq!(stored_by(&write(2), &opened), (OF_2, vec![9, 2]));
    }

    #[test]
    fn a_recovery_is_found_before_the_call_itself() {
        let mut decided = written();
        decided.decide(2);
        assert_eq!(stored_by(&decided.call(Function::Begin, &[2, BUDGET]), &decided), (OF_2, vec![3, 7, 2, 2]));
        decided.begin(1);
        let reads = RawSession { active: 1, reading: [1, 0, 0, 0] };
        assert_eq!(stored_by(&decided.call(Function::OpenRead, &[1, 1, BUDGET]), &decided), (reads, vec![3, 7, 2]));
    }

    #[test]
    fn a_call_without_a_store_has_no_sectors() {
        assert_eq!(stored_by(&of_client(Function::Open, &[1]), &written()), (OF_2, vec![]));
    }

    #[test]
    fn the_call_is_made() {
        let (call, mut stage) = (of_client(Function::Commit, &[]), written());
        let mut expected = stage.volume.clone();
        Side::Rust.make(&call, &mut expected, &mut []);
        stored(&call, &mut stage.volume);
        assert!(stage.volume == expected);
    }

    #[test]
    #[should_panic(expected = "a store that changes a byte")]
    fn a_store_of_the_same_bytes_is_not_passed_over() {
        stored_by(&stage::write(written().session, 2, 1, 0), &written());
    }

    #[test]
    #[should_panic(expected = "is refused")]
    fn a_refusal_is_no_transaction() {
        stored_by(&of_client(Function::Open, &[3]), &written());
    }

    #[test]
    #[should_panic(expected = "changes two sectors")]
    fn a_store_is_of_one_sector() {
        let mut after = written().volume;
        after[256] ^= 1;
        assert_eq!(only_difference(&written().volume, &after), 1);
        after[255] ^= 1;
        only_difference(&written().volume, &after);
    }
}
