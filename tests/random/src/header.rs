//! The structs of include/hnho.h, field by field.

/// `struct hnho_position`
#[repr(C)]
#[derive(Debug, Clone, Copy, PartialEq, Eq, Default)]
pub struct Position {
    pub station: i64,
    pub side: i64,
}

/// `struct hnho_lane`
#[repr(C)]
#[derive(Debug, Clone, Copy, PartialEq, Eq, Default)]
pub struct Lane {
    pub entry: i64,
    pub centre: i64,
    pub factor: i64,
}

/// `struct hnho_placement`
#[repr(C)]
#[derive(Debug, Clone, Copy, PartialEq, Eq, Default)]
pub struct Placement {
    pub set: i64,
    pub lane: [Lane; 10],
}

/// `struct hnho_governing`
#[repr(C)]
#[derive(Debug, Clone, Copy, PartialEq, Eq, Default)]
pub struct Governing {
    pub value: i64,
    pub row: i64,
    pub left_out: i64,
    pub unladen: i64,
    pub k: i64,
}

/// `struct hnho_state`
#[repr(C)]
#[derive(Debug, Clone, Copy, PartialEq, Eq, Default)]
pub struct State {
    pub reported: i64,
    pub greatest: Governing,
    pub least: Governing,
}

/// `struct hnho_account`
#[repr(C)]
#[derive(Debug, Clone, Copy, PartialEq, Eq, Default)]
pub struct Account {
    pub normal_greatest: i64,
    pub normal_least: i64,
    pub overload_greatest: i64,
    pub overload_least: i64,
    pub raising: Position,
    pub lowering: Position,
    pub normal_greatest_placement: Placement,
    pub normal_least_placement: Placement,
    pub overload_greatest_placement: Placement,
    pub overload_least_placement: Placement,
    pub service: State,
    pub ultimate: State,
    pub first_lanes: i64,
    pub second_lanes: i64,
    pub records_walked: i64,
}

extern "C" {
    fn read_account(bytes: *const u8, account: *mut Account);
    fn account_size() -> usize;
}

/// Bytes of an account.
pub const ACCOUNT_BYTES: usize = 1256;

/// `hnho_read_account` of an account's bytes.
pub fn read(bytes: &[u8; ACCOUNT_BYTES]) -> Account {
    let mut account = Account::default();
    // The C struct is as long as ours, and the header's reader looks at no byte past an account.
    unsafe {
        assert_eq!(account_size(), size_of::<Account>(), "the structs differ");
        read_account(bytes.as_ptr(), &mut account);
    }
    account
}

#[cfg(test)]
mod tests {
    use super::*;

    /// An account whose number k is k: generated jobs cannot tell apart the fields that are 0 in all of theirs.
    #[test]
    fn fields_are_read_from_their_places() {
        let mut bytes = [0; ACCOUNT_BYTES];
        for (k, number) in (0..).zip(bytes.chunks_exact_mut(8)) {
            number[0] = k;
        }
        let account = read(&bytes);
        let governing = account.service.greatest;
        assert_eq!(
            [governing.left_out, governing.unladen, governing.k],
            [135, 136, 137]
        );
        let lane = account.overload_least_placement.lane[9];
        assert_eq!([lane.entry, lane.centre, lane.factor], [129, 130, 131]);
        let counts = [
            account.first_lanes,
            account.second_lanes,
            account.records_walked,
        ];
        assert_eq!(counts, [154, 155, 156]);
    }
}
