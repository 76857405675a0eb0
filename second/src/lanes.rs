//! 01 "Lanes" and 02 "Two carriageways": lane count, the limits of an element's centre
//! line and the transverse ordinate there. Places across are in n-ths of a cm from the
//! left kerb of a lane's own carriageway, n being that carriageway's lane count. Lanes
//! count from 0 here, the leftmost first, the second carriageway's after the first's.

use crate::job::Job;
use std::ops::RangeInclusive;

/// The most lanes a job has, of two carriageways.
pub const MOST_LANES: usize = 10;

/// Least distance from an element's centre line to its lane's edges, in cm.
pub const EDGE_DISTANCE: i64 = 150;

/// n for a carriageway width in cm.
pub fn lane_count(width: i64) -> usize {
    match width {
        ..600 => 1,
        600..970 => 2,
        970..1340 => 3,
        1340..1710 => 4,
        _ => 5,
    }
}

/// The lanes of the first carriageway and of the second, 0 where there is none.
pub fn lane_counts(job: &Job) -> [usize; 2] {
    [
        lane_count(job.width),
        job.second_width().map_or(0, lane_count),
    ]
}

/// The lanes of all carriageways.
pub fn lanes_of_job(job: &Job) -> usize {
    lane_counts(job).iter().sum()
}

/// A carriageway: its width in cm, the spacing of its transverse ordinates and these.
#[derive(Debug, Clone, Copy, PartialEq, Eq)]
struct Carriageway<'a> {
    width: i64,
    spacing: i64,
    transverse: &'a [i64],
}

impl Carriageway<'_> {
    /// Its lane count.
    fn n(&self) -> i64 {
        lane_count(self.width) as i64
    }

    /// Distance between transverse ordinates, in n-ths of a cm.
    fn ordinate_step(&self) -> i64 {
        self.spacing * self.n()
    }

    /// The transverse ordinate at a centre, in thousandths times n times g: the
    /// straight line between the ordinates on either side, without its division.
    fn transverse_ordinate(&self, centre: i64) -> i64 {
        let step = self.ordinate_step();
        let before = (centre / step) as usize;
        let beyond = centre % step;
        if beyond == 0 {
            self.transverse[before] * step
        } else {
            self.transverse[before] * (step - beyond) + self.transverse[before + 1] * beyond
        }
    }
}

/// The job's carriageways, the left one first.
fn carriageways(job: &Job) -> impl Iterator<Item = Carriageway<'_>> {
    let of = |width, transverse| Carriageway {
        width,
        spacing: job.spacing,
        transverse,
    };
    let first = of(job.width, &job.transverse[..]);
    let second = job
        .second_width()
        .map(|width| of(width, &job.second_transverse[..]));
    std::iter::once(first).chain(second)
}

/// A lane's carriageway, and its number there, from 0 on.
fn on_carriageway(job: &Job, lane: usize) -> (Carriageway<'_>, usize) {
    let mut numbered = carriageways(job).flat_map(|carriageway| {
        let numbers = 0..lane_count(carriageway.width);
        numbers.map(move |number| (carriageway, number))
    });
    numbered.nth(lane).expect("a lane of the job")
}

/// The centres open to a lane's element. Of its carriageway's lanes, number i spans i
/// times W to i + 1 times W in n-ths of a cm.
pub fn centre_limits(job: &Job, lane: usize) -> RangeInclusive<i64> {
    let (carriageway, number) = on_carriageway(job, lane);
    let (n, width) = (carriageway.n(), carriageway.width);
    let number = number as i64;
    number * width + EDGE_DISTANCE * n..=(number + 1) * width - EDGE_DISTANCE * n
}

/// The product of the carriageways' lane counts, times g: with it the transverse
/// ordinate at every reported centre is whole.
pub fn common_denominator(job: &Job) -> i64 {
    carriageways(job).map(|one| one.n()).product::<i64>() * job.spacing
}

/// The transverse ordinate at a centre of a lane, in thousandths times the common
/// denominator.
pub fn transverse_ordinate(job: &Job, lane: usize, centre: i64) -> i64 {
    let (carriageway, _) = on_carriageway(job, lane);
    let of_others = common_denominator(job) / carriageway.ordinate_step();
    carriageway.transverse_ordinate(centre) * of_others
}

/// The centres where a lane's ordinate can be greatest or least, in rising
/// order: its two limits and every transverse ordinate between them.
pub fn breakpoint_centres(job: &Job, lane: usize) -> Vec<i64> {
    let (carriageway, _) = on_carriageway(job, lane);
    let limits = centre_limits(job, lane);
    let step = carriageway.ordinate_step();
    let ordinates = (0..carriageway.transverse.len() as i64).map(|number| number * step);
    let mut centres = vec![*limits.start()];
    centres.extend(ordinates.filter(|centre| limits.contains(centre)));
    centres.push(*limits.end());
    centres
}
