//! What 01, 02 "Farm bridges", "Effects past a word", "Span by sign", "Additional
//! overload lanes", "Two carriageways" and "Records walked" make due for a job, by trying
//! everything that they name: every station and side, every centre in n-ths of a cm,
//! every lane set, every HO lane with every lane's factor, every row with every k and every
//! omission. Of eight lanes or more the factors are not tried in every order but given to
//! the furthest lanes first. Of the crate only the shape of an answer is used, so a slip in
//! the solver, or in what the solver and the checker share, shows beside it.

use super::farm_tables::{FIRST_ULTIMATE_ROW, K, LIVE, ROWS, ROW_OF_K};
use second::account::{Answer, Governing, State};
use std::cell::OnceCell;
use std::collections::{BTreeMap, BTreeSet};

/// A call's answer and patch buffer, with all that is due in its place: the
/// refusal, or the values, the governing rows with their k and the patch bytes.
/// The placements and omissions given, and a k that is as good as the other, are
/// kept where the job is accepted.
pub fn due(job: &[u8], before: &[u8], given: &Answer) -> (Answer, Vec<u8>) {
    let words: Vec<i64> = job
        .chunks_exact(4)
        .map(|word| i32::from_le_bytes(word.try_into().unwrap()).into())
        .collect();
    if let Some((refusal, place)) = refusal(job.len(), &words, before.len()) {
        let refused = Answer {
            refusal,
            place: place as u64,
            ..Answer::default()
        };
        return (refused, before.to_vec());
    }
    let job = Parts::of(&words);
    let mut answer = Answer {
        refusal: 0,
        place: 0,
        ..*given
    };
    let account = &mut answer.account;
    let [normal, overload] = traffic(&job);
    account.normal_greatest.value = normal.greatest;
    account.normal_least.value = normal.least;
    account.overload_greatest.value = overload.greatest;
    account.overload_least.value = overload.least;
    let lanes = job
        .carriageways()
        .map(|carriageway| carriageway.lanes as u32);
    let counts: Vec<u32> = lanes.collect();
    account.first_lanes = counts[0];
    account.second_lanes = counts.get(1).copied().unwrap_or(0);
    put_state(&job, 1, [normal, overload], &mut account.service);
    put_state(&job, 2, [normal, overload], &mut account.ultimate);
    account.records_walked = records_walked(&job);
    (answer, patch_after(&job, before))
}

/// The patch buffer of an accepted job after the call.
fn patch_after(job: &Parts, before: &[u8]) -> Vec<u8> {
    let mut after = before.to_vec();
    for (byte, piece) in after.iter_mut().zip(job.line.chunks(2)) {
        let sum = piece[0] + piece[1];
        *byte = u8::from(sum > 0) + 2 * u8::from(sum < 0);
    }
    after
}

/// A job's words, by section.
struct Parts<'a> {
    header: &'a [i64],
    line: &'a [i64],
    transverse: &'a [i64],
    /// The second carriageway's, where there is one.
    second: &'a [i64],
    effects: &'a [i64],
    rows: &'a [i64],
    records: &'a [i64],
}

impl Parts<'_> {
    /// The sections of as many words as the header calls for.
    fn of(words: &[i64]) -> Parts<'_> {
        let (header, rest) = words.split_at(header_words(words).expect("an edition"));
        let [line, transverse, second, effects, rows, _] = section_lengths(header);
        let (line, rest) = rest.split_at(line);
        let (transverse, rest) = rest.split_at(transverse);
        let (second, rest) = rest.split_at(second);
        let (effects, rest) = rest.split_at(effects);
        let (rows, records) = rest.split_at(rows);
        Parts {
            header,
            line,
            transverse,
            second,
            effects,
            rows,
            records,
        }
    }

    /// The carriageways, from the left.
    fn carriageways(&self) -> impl Iterator<Item = Side<'_>> {
        let side = |width: i64, transverse| Side {
            width,
            lanes: lanes(width),
            spacing: self.header[3],
            transverse,
        };
        let first = side(self.header[4], self.transverse);
        let second = has_two_sides(self.header).then(|| side(self.header[12], self.second));
        [Some(first), second].into_iter().flatten()
    }

    /// The records from this one on, each as its three words. One more than
    /// there are shows that the chain comes back to a record.
    fn chain(&self, first: i64) -> Vec<&[i64]> {
        let mut chain = vec![];
        let mut number = first;
        while number != 0 && chain.len() * 3 <= self.records.len() {
            let record = &self.records[3 * (number as usize - 1)..][..3];
            chain.push(record);
            number = record[2];
        }
        chain
    }
}

/// Each record as often as rows come to it, by their fourth words or by the third of a
/// record they came to before. A farm job has neither rows nor records.
fn records_walked(job: &Parts) -> i64 {
    let mut come_to: Vec<i64> = job.rows.chunks(4).map(|row| row[3]).collect();
    let mut walked = 0;
    loop {
        come_to.retain(|&number| number != 0);
        if come_to.is_empty() {
            return walked;
        }
        walked += come_to.len() as i64;
        for number in &mut come_to {
            *number = job.records[3 * *number as usize - 1];
        }
    }
}

/// The words of a header of the edition that word 0 names.
fn header_words(words: &[i64]) -> Option<usize> {
    match words.first()? {
        1 => Some(10),
        2 => Some(12),
        3 => Some(13),
        4 => Some(11),
        _ => None,
    }
}

fn is_farm_job(header: &[i64]) -> bool {
    header[0] == 4
}

fn has_two_sides(header: &[i64]) -> bool {
    header[0] == 3
}

/// Editions 2 and 3.
fn is_in_newtons(header: &[i64]) -> bool {
    [2, 3].contains(&header[0])
}

/// Kind 4, which editions 2 and 3 alone have.
fn has_spans(header: &[i64]) -> bool {
    is_in_newtons(header) && header[5] == 4
}

/// Words of an effect's value.
fn value_words(header: &[i64]) -> usize {
    1 + usize::from(is_in_newtons(header))
}

/// An effect's value in its edition's unit, and how many N·U that is.
fn value_and_unit(effect: &[i64]) -> (i64, i64) {
    match effect {
        [low, high, _] => ((high << 32) + low.rem_euclid(1 << 32), 1),
        _ => (effect[0], 1000),
    }
}

fn section_lengths(header: &[i64]) -> [usize; 6] {
    let [pieces, spacing, width] = [header[2], header[3], header[4]];
    let [effects, rows, records] = [header[7], header[8], header[9]];
    let across = |width: i64| width / spacing + i64::from(width % spacing != 0) + 1;
    let effect_words = 1 + value_words(header) as i64;
    [
        2 * pieces,
        across(width),
        if has_two_sides(header) {
            across(header[12])
        } else {
            0
        },
        effect_words * effects,
        4 * rows,
        3 * records,
    ]
    .map(|words| words as usize)
}

/// The lowest refusal with its lowest place; 11 comes after 2.
fn refusal(bytes: usize, words: &[i64], patch_bytes: usize) -> Option<(u64, usize)> {
    let Some(header) = header_words(words) else {
        return Some((1, 0));
    };
    if words.len() < header || !bytes.is_multiple_of(4) {
        return Some((1, 0));
    }
    let header_place = (1..header).find(|&place| !header_word_is_lawful(words, place));
    if let Some(place) = header_place {
        return Some((2, place));
    }
    if is_farm_job(words) {
        let (narrowest, widest) = [(300, 370), (300, 370), (370, 430)][words[10] as usize - 1];
        if words[4] < narrowest || words[4] > widest {
            return Some((11, 4));
        }
    }
    let words_due = header + section_lengths(words).iter().sum::<usize>();
    if words.len() != words_due {
        return Some((3, words_due));
    }

    let job = Parts::of(words);
    let mut faults = vec![];
    let mut start = header;
    let sections = [
        ("line", job.line, 2),
        ("transverse", job.transverse, 1),
        ("transverse", job.second, 1),
        ("effects", job.effects, 1 + value_words(words)),
        ("rows", job.rows, 4),
        ("records", job.records, 3),
    ];
    for (name, section, each) in sections {
        let number = if ["line", "transverse"].contains(&name) {
            4
        } else {
            6
        };
        for (at, group) in section.chunks(each).enumerate() {
            let place = start + at * each;
            for (within, &word) in group.iter().enumerate() {
                let (from, to) = limits(words, name, at, within, group);
                if word < from || word > to {
                    faults.push((number, place + within));
                }
            }
            if name == "line" && group[0] * group[1] < 0 {
                faults.push((5, place));
            }
        }
        start += section.len();
    }
    if faults.is_empty() {
        let lines = job.line.len() + job.transverse.len() + job.second.len();
        let rows_start = header + lines + job.effects.len();
        for (at, row) in job.rows.chunks(4).enumerate() {
            let chain = job.chain(row[3]);
            let named: BTreeSet<i64> = chain.iter().map(|record| record[0]).collect();
            if chain.len() * 3 > job.records.len() {
                faults.push((7, rows_start + 4 * at));
            } else if named.len() < chain.len() {
                faults.push((8, rows_start + 4 * at));
            }
        }
    }
    let pieces = words[2] as usize;
    if patch_bytes < pieces {
        faults.push((9, pieces));
    }
    faults.into_iter().min()
}

fn header_word_is_lawful(words: &[i64], place: usize) -> bool {
    let word = words[place];
    let (from, to) = match place {
        1 => return [1, 2, 5, 10, 25, 50].contains(&word),
        2 if word * words[1] > 1000 => return false,
        2 => (1, 1000),
        3 => (10, 50),
        4 | 12 => (300, 2079),
        5 if is_in_newtons(words) => (1, 4),
        5 => (1, 3),
        6 => [(1000, 1300), (0, 0), (0, 5000), (1, 2000)][words[5] as usize - 1],
        10 if has_spans(words) => (1, 2000),
        7 if is_farm_job(words) => (11, 11),
        8 | 9 if is_farm_job(words) => (0, 0),
        7 => (0, 16),
        8 => (1, 32),
        9 => (0, 512),
        _ if is_in_newtons(words) => (0, 0),
        _ => (1, 3),
    };
    from <= word && word <= to
}

/// The limits of a word within a piece, an effect, a row or a record, the
/// section's first being at 0.
fn limits(header: &[i64], section: &str, at: usize, within: usize, group: &[i64]) -> (i64, i64) {
    let (effects, records) = (header[7], header[9]);
    match (section, within) {
        ("line", _) if has_two_sides(header) => (-500, 500),
        ("line", _) => (-5000, 5000),
        ("transverse", _) => (-1000, 1000),
        // A word of a value in halves is at fault only where it is the low one
        // and the value is outside.
        ("effects", 0) if value_words(header) == 2 => {
            let most = 100_000_000_000_000;
            let within = (-most..=most).contains(&value_and_unit(group).0);
            [(1, 0), (i64::MIN, i64::MAX)][usize::from(within)]
        }
        ("effects", 1) if value_words(header) == 2 => (i64::MIN, i64::MAX),
        ("effects", 0) => (-1_000_000_000, 1_000_000_000),
        ("effects", _) if is_farm_job(header) => [(1, 1), (2, 2)][usize::from(at >= 3)],
        ("effects", _) | ("rows", 0) => (1, 2),
        ("rows", 1) => (0, 2),
        ("rows", 2) if group[1] == 0 => (0, 0),
        ("rows", 3) | ("records", 2) => (0, records),
        ("records", 0) => (1, effects),
        // A factor of a row or of a record.
        _ => (0, 3000),
    }
}

/// The greatest and the least of what was tried.
#[derive(Clone, Copy)]
struct Furthest {
    greatest: i64,
    least: i64,
}

impl Furthest {
    const NOTHING_TRIED: Furthest = Furthest {
        greatest: i64::MIN,
        least: i64::MAX,
    };

    fn take(&mut self, greatest: i64, least: i64) {
        self.greatest = self.greatest.max(greatest);
        self.least = self.least.min(least);
    }
}

/// A carriageway.
struct Side<'a> {
    width: i64,
    lanes: i64,
    spacing: i64,
    transverse: &'a [i64],
}

/// r in twentieths for 1 to 10 lanes.
const R: [i64; 11] = [0, 20, 18, 16, 14, 12, 11, 11, 11, 11, 11];

/// What a lane carries in overload: nothing, HO, or HN as the m-th additional lane,
/// for m from 1 on.
#[derive(Clone, Copy, PartialEq)]
enum Role {
    Unloaded,
    Ho,
    Additional(usize),
}

/// The twentieths of the first additional lane to the ninth.
const ADDITIONAL: [i64; 9] = [20, 18, 16, 14, 12, 11, 11, 11, 11];

/// Every way for so many lanes to have one HO and each of the first additional lanes
/// once, found among all ways for each of them to have a role that none before has.
fn overload_roles(lanes: usize) -> Vec<Vec<Role>> {
    let additional = (1..lanes).map(Role::Additional);
    let every_role: Vec<Role> = [Role::Unloaded, Role::Ho]
        .into_iter()
        .chain(additional)
        .collect();
    let mut ways: Vec<Vec<Role>> = vec![vec![]];
    for _ in 0..lanes {
        let with_one_more = |way: &Vec<Role>| {
            let way = way.clone();
            let open = every_role.iter().copied();
            open.filter_map(move |role| {
                let is_free = role == Role::Unloaded || !way.contains(&role);
                is_free.then(|| [&way[..], &[role]].concat())
            })
            .collect::<Vec<_>>()
        };
        ways = ways.iter().flat_map(with_one_more).collect();
    }
    ways.retain(|roles| {
        let times = |role| roles.iter().filter(|&&one| one == role).count();
        let additional = lanes - times(Role::Unloaded) - times(Role::Ho);
        times(Role::Ho) == 1 && (1..=additional).all(|m| times(Role::Additional(m)) == 1)
    });
    ways
}

/// The most lanes whose roles are all tried.
const EVERY_ROLE_TO: usize = 7;

thread_local! {
    /// `overload_roles` of so many lanes, from 1 on, once they are asked for.
    static OVERLOAD_ROLES: [OnceCell<Vec<Vec<Role>>>; EVERY_ROLE_TO] = Default::default();
}

/// The sum over lanes of HN and HO effects in twentieths, furthest, with HO in each lane
/// beside every set of others, the larger factors in the further ones.
fn overload_sums_in_order(hn: &[Furthest], ho: &[Furthest]) -> Furthest {
    let mut furthest = Furthest::NOTHING_TRIED;
    for (ho_lane, of_ho) in ho.iter().enumerate() {
        for set in (0..1_u32 << hn.len()).filter(|set| set >> ho_lane & 1 == 0) {
            let others: Vec<&Furthest> = (0..hn.len())
                .filter(|lane| set >> lane & 1 == 1)
                .map(|lane| &hn[lane])
                .collect();
            let mut greatest: Vec<i64> = others.iter().map(|one| one.greatest).collect();
            let mut least: Vec<i64> = others.iter().map(|one| one.least).collect();
            greatest.sort_by_key(|effect| -effect);
            least.sort();
            let counted = |effects: &[i64]| -> i64 {
                let counted = effects.iter().zip(ADDITIONAL);
                counted.map(|(effect, factor)| factor * effect).sum()
            };
            furthest.take(
                20 * of_ho.greatest + counted(&greatest),
                20 * of_ho.least + counted(&least),
            );
        }
    }
    furthest
}

/// The sum over lanes of HN and HO effects in their roles, in twentieths, furthest.
fn overload_sums(hn: &[Furthest], ho: &[Furthest]) -> Furthest {
    if hn.len() > EVERY_ROLE_TO {
        return overload_sums_in_order(hn, ho);
    }
    let sum = |roles: &[Role], of: fn(&Furthest) -> i64| -> i64 {
        let in_lane = |(lane, role): (usize, &Role)| match role {
            Role::Unloaded => 0,
            Role::Ho => 20 * of(&ho[lane]),
            Role::Additional(m) => ADDITIONAL[m - 1] * of(&hn[lane]),
        };
        roles.iter().enumerate().map(in_lane).sum()
    };
    let mut furthest = Furthest::NOTHING_TRIED;
    OVERLOAD_ROLES.with(|of_lanes| {
        let ways = of_lanes[hn.len() - 1].get_or_init(|| overload_roles(hn.len()));
        for roles in ways {
            furthest.take(sum(roles, |one| one.greatest), sum(roles, |one| one.least));
        }
    });
    furthest
}

/// Normal, over every lane set, and overload; a farm job has 0.85 HN and no HO.
fn traffic(job: &Parts) -> [Furthest; 2] {
    let [dynamic_greatest, dynamic_least] = dynamic_factors(job.header);
    let pair_sums = pair_sums(job);
    let every_n: i64 = job.carriageways().map(|side| side.lanes).product();
    let in_lanes = |axle: i64| -> Vec<Furthest> {
        let on_side = |side: Side| {
            let in_lane = |lane| in_lane(job, &side, lane, axle, &pair_sums);
            let of_others = |one: Furthest| Furthest {
                greatest: one.greatest * (every_n / side.lanes),
                least: one.least * (every_n / side.lanes),
            };
            (0..side.lanes)
                .map(in_lane)
                .map(of_others)
                .collect::<Vec<_>>()
        };
        job.carriageways().flat_map(on_side).collect()
    };
    let (hn, ho) = (in_lanes(1600), in_lanes(3200));
    let twentieths_of_x = if is_farm_job(job.header) { 17 } else { 20 };
    let n = hn.len();
    // What stands in a lane carries every side's n, times g.
    let over = i128::from(20 * 800_000 * every_n * job.header[3]);
    let effect = |twentieths: Furthest| {
        let [greatest, least] = [
            (twentieths.greatest, dynamic_greatest),
            (twentieths.least, dynamic_least),
        ]
        .map(|(sum, dynamic)| 3 * twentieths_of_x * i128::from(sum) * i128::from(dynamic));
        let up = greatest / over + i128::from(greatest % over > 0);
        let down = least / over - i128::from(least % over < 0);
        Furthest {
            greatest: up as i64,
            least: down as i64,
        }
    };
    let sum_at_r = |lanes: &[usize]| Furthest {
        greatest: R[lanes.len()] * lanes.iter().map(|&lane| hn[lane].greatest).sum::<i64>(),
        least: R[lanes.len()] * lanes.iter().map(|&lane| hn[lane].least).sum::<i64>(),
    };

    let mut normal = Furthest::NOTHING_TRIED;
    for set in 0..1_u32 << n {
        let loaded: Vec<usize> = (0..n).filter(|lane| set >> lane & 1 == 1).collect();
        let tried = effect(sum_at_r(&loaded));
        normal.take(tried.greatest, tried.least);
    }
    let overload = if is_farm_job(job.header) {
        Furthest {
            greatest: 0,
            least: 0,
        }
    } else {
        effect(overload_sums(&hn, &ho))
    };
    [normal, overload]
}

/// The dynamic factors for greatest and for least, in thousandths.
fn dynamic_factors(header: &[i64]) -> [i64; 2] {
    let [kind, value] = [header[5], header[6]];
    match kind {
        1 => [value; 2],
        2 => [1000; 2],
        3 => [i64::max(1000, 1300 - 3 * value); 2],
        _ => [value, header[10]].map(factor_by_counting),
    }
}

/// The lowest whole number of thousandths that 1 + 15/(L + 38) does not pass, L in
/// metres; but 1300 to 12 m. What the factor is over 1, times L + 38, reaches 15, here
/// in thousandths and in dm.
fn factor_by_counting(decimetres: i64) -> i64 {
    let enough = |thousandths: &i64| (thousandths - 1000) * (decimetres + 10 * 38) >= 15 * 10_000;
    match decimetres {
        ..=120 => 1300,
        _ => (1000..).find(enough).expect("a number large enough"),
    }
}

fn lanes(width: i64) -> i64 {
    let wide_enough = |from: &&i64| width >= **from;
    1 + [600, 970, 1340, 1710].iter().filter(wide_enough).count() as i64
}

/// An element in a lane of a side, over every centre, every stand and every piece loaded
/// or not, in 75 N·U times transverse thousandths, times n times g.
fn in_lane(job: &Parts, side: &Side, lane: i64, axle: i64, pair_sums: &BTreeSet<i64>) -> Furthest {
    let pieces = job.line.chunks(2);
    let uniform: Vec<i64> = pieces
        .map(|piece| 7 * job.header[1] * (piece[0] + piece[1]))
        .collect();
    let mut furthest = Furthest::NOTHING_TRIED;
    for across in transverse_ordinates(side, lane) {
        let on_pieces = uniform.iter().map(|piece| piece * across);
        let greatest: i64 = on_pieces.clone().map(|piece| piece.max(0)).sum();
        let least: i64 = on_pieces.map(|piece| piece.min(0)).sum();
        for sum in pair_sums {
            let axles = axle * sum * across;
            furthest.take(greatest + axles, least + axles);
        }
    }
    furthest
}

/// What the ordinates under the two axles add up to, for every station of the
/// left one and either side. The end of a piece is under the left axle of one
/// stand and under the right axle of another; off the line the sum is 0.
fn pair_sums(job: &Parts) -> BTreeSet<i64> {
    let apart = 50 / job.header[1];
    let mut stands: BTreeMap<(i64, &str), i64> = BTreeMap::new();
    for (number, piece) in (0..).zip(job.line.chunks(2)) {
        for (station, side, ordinate) in
            [(number, "right", piece[0]), (number + 1, "left", piece[1])]
        {
            for left_axle in [station, station - apart] {
                *stands.entry((left_axle, side)).or_default() += ordinate;
            }
        }
    }
    stands.into_values().chain([0]).collect()
}

/// The transverse ordinates, times n times g, at every n-th of a cm of the
/// carriageway that is 150 cm or more from the lane's edges. Each ordinate of
/// the job counts in full at its place and fades to 0 over a spacing.
fn transverse_ordinates(side: &Side, lane: i64) -> BTreeSet<i64> {
    let (n, width) = (side.lanes, side.width);
    let spacing = n * side.spacing;
    let (left_edge, right_edge) = (lane * width, (lane + 1) * width);
    let apart = |centre: i64| centre - left_edge >= 150 * n && right_edge - centre >= 150 * n;
    let centres = (0..=n * width).filter(|&centre| apart(centre));
    centres
        .map(|centre| {
            let ordinates = (0..).zip(side.transverse);
            let parts = ordinates.map(|(number, ordinate)| {
                ordinate * i64::max(0, spacing - (centre - number * spacing).abs())
            });
            parts.sum::<i64>()
        })
        .collect()
}

/// A row: its number, its state, its live kind and factor, its k and its effects
/// with their factors.
struct RowParts {
    number: u32,
    state: i64,
    live: [i64; 2],
    k: u32,
    effects: Vec<[i64; 2]>,
}

/// The rows of the job's words.
fn own_rows(job: &Parts) -> Vec<RowParts> {
    let rows = (1..).zip(job.rows.chunks(4));
    rows.map(|(number, row)| RowParts {
        number,
        state: row[0],
        live: [row[1], row[2]],
        k: 0,
        effects: job.chain(row[3]).iter().map(|r| [r[0], r[1]]).collect(),
    })
    .collect()
}

/// A farm job's rows, that of k once for each.
fn farm_rows() -> Vec<RowParts> {
    let mut rows = vec![];
    for (number, factors) in (1..).zip(ROWS) {
        let choices = if number == ROW_OF_K {
            vec![1300, 800]
        } else {
            vec![0]
        };
        for k in choices {
            let effects = (1..)
                .zip(&factors[..LIVE])
                .filter(|(_, factor)| **factor != 0);
            rows.push(RowParts {
                number: number as u32,
                state: 1 + i64::from(number >= FIRST_ULTIMATE_ROW),
                live: [i64::from(factors[LIVE] != 0), factors[LIVE]],
                k,
                effects: effects
                    .map(|(effect, &factor)| [effect, if factor == K { k.into() } else { factor }])
                    .collect(),
            });
        }
    }
    rows
}

/// A state's values and rows, over every row with every k and every omission.
fn put_state(job: &Parts, state: i64, traffic: [Furthest; 2], reported: &mut State) {
    let rows = if is_farm_job(job.header) {
        farm_rows()
    } else {
        own_rows(job)
    };
    let tried: Vec<(&RowParts, Furthest)> = rows
        .iter()
        .filter(|row| row.state == state)
        .map(|row| (row, in_row(job, row, traffic)))
        .collect();
    if tried.is_empty() {
        *reported = State::default();
        return;
    }
    reported.present = 1;
    let values = |of: fn(&Furthest) -> i64| -> Vec<(i64, u32, u32)> {
        let rows = tried.iter();
        rows.map(|(row, tried)| (of(tried), row.number, row.k))
            .collect()
    };
    let (greatest, least) = (values(|tried| tried.greatest), values(|tried| tried.least));
    let value = greatest.iter().map(|tried| tried.0).max().expect("rows");
    put_governing(value, &greatest, &mut reported.greatest);
    let value = least.iter().map(|tried| tried.0).min().expect("rows");
    put_governing(value, &least, &mut reported.least);
}

/// The lowest row that gives the value, and a k with which it does.
fn put_governing(value: i64, tried: &[(i64, u32, u32)], reported: &mut Governing) {
    let mut giving = tried.iter().filter(|tried| tried.0 == value);
    let row = giving.clone().map(|tried| tried.1).min().expect("a row");
    let keeps_k = giving
        .clone()
        .any(|tried| tried.1 == row && tried.2 == reported.k);
    (reported.value, reported.row) = (value, row);
    if !keeps_k {
        reported.k = giving.find(|tried| tried.1 == row).expect("its row").2;
    }
}

/// A row with each effect marked 2, and the traffic, left out or not.
fn in_row(job: &Parts, row: &RowParts, traffic: [Furthest; 2]) -> Furthest {
    let mut sums = vec![0];
    for &[number, factor] in &row.effects {
        let each = 1 + value_words(job.header);
        let effect = &job.effects[each * (number as usize - 1)..][..each];
        let (value, unit) = value_and_unit(effect);
        let kept: Vec<i64> = sums.iter().map(|sum| sum + factor * unit * value).collect();
        if effect[each - 1] == 2 {
            sums.extend(kept);
        } else {
            sums = kept;
        }
    }
    let mut furthest = Furthest::NOTHING_TRIED;
    let [live_kind, live_factor] = row.live;
    for sum in sums {
        furthest.take(sum, sum);
        if live_kind != 0 {
            let traffic = traffic[live_kind as usize - 1];
            furthest.take(
                sum + live_factor * traffic.greatest,
                sum + live_factor * traffic.least,
            );
        }
    }
    furthest
}
