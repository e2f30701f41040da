//! Random plans.

use crate::histories::History;
use crate::kinds::Kind;
use crate::random::Random;
use baseline::batch::Batch;
use baseline::case::Case;
use baseline::draft::Draft;
use baseline::schema::{Ids, Schema};

pub type Changes = Vec<[u8; 4]>;

const UNUSED: u8 = 0xFF;

/// Of so many plans one is taken.
const TRIED: usize = 1_000;

/// A plan that moves about six of ten of these cases, the nearest to that of many.
pub fn plan(kind: &Kind, schema: &Schema, histories: &[History], random: &mut Random) -> Changes {
    let plans = std::iter::repeat_with(|| changes(kind, schema, random))
        .filter(|changes| kinds_in(changes) >= kind.change_kinds)
        .take(TRIED);
    let off =
        |changes: &Changes| (6 * histories.len()).abs_diff(10 * moved(schema, changes, histories));
    plans.min_by_key(off).expect("there are plans")
}

/// As many changes as the kind has, as a draft admits them. Drops and deletes come first.
fn changes(kind: &Kind, schema: &Schema, random: &mut Random) -> Changes {
    let mut draft = Draft::begin(schema);
    let mut changes = Changes::with_capacity(kind.changes);
    let taking_away = random.between((kind.changes / 5, kind.changes / 3));
    // how far from the row's end gaps lie: cases that are moved have not come there
    let spread = random.between((1, schema.row.len()));
    while changes.len() < kind.changes {
        let change = if changes.len() < taking_away {
            taken_away(draft.schema(), spread, random)
        } else {
            put_in(draft.schema(), spread, random)
        };
        if draft.add(change).is_ok() {
            changes.push(change);
        }
    }
    changes
}

fn taken_away(schema: &Schema, spread: usize, random: &mut Random) -> [u8; 4] {
    if schema.edges.is_empty() || random.percent(60) {
        return [2, late_activity(schema, spread, random), UNUSED, UNUSED];
    }
    let [source, target] = schema.edges[random.below(schema.edges.len())];
    [1, source, target, UNUSED]
}

/// An activity that stands so near to the row's end, if there is one.
fn late_activity(schema: &Schema, spread: usize, random: &mut Random) -> u8 {
    let is_late = |id: &u8| schema.place(*id) + spread >= schema.row.len();
    let late = Ids(schema.activities)
        .filter(is_late)
        .fold(0, |ids, id| ids | 1 << id);
    random.id(if late == 0 { schema.activities } else { late })
}

/// A gap from which whole items reach to this one, if there is one.
fn items_before(schema: &Schema, gap: usize, random: &mut Random) -> usize {
    let spots = &schema.layout.spots;
    let from: Vec<usize> = (0..gap).filter(|&from| spots[from] == spots[gap]).collect();
    if from.is_empty() {
        return gap;
    }
    from[random.below(from.len())]
}

fn put_in(schema: &Schema, spread: usize, random: &mut Random) -> [u8; 4] {
    let id = random.below(64) as u8;
    let gap = schema.row.len() - random.below(spread.min(schema.row.len()) + 1);
    match random.below(10) {
        0..4 => [3, id, gap as u8, UNUSED],
        4..6 => [4, id, items_before(schema, gap, random) as u8, gap as u8],
        _ => [
            5,
            random.id(schema.activities),
            random.id(schema.activities),
            UNUSED,
        ],
    }
}

/// How many kinds of changes there are.
fn kinds_in(changes: &Changes) -> usize {
    (1..=5)
        .filter(|&kind| changes.iter().any(|change| change[0] == kind))
        .count()
}

/// How many of these cases the changes move.
fn moved(schema: &Schema, changes: &Changes, histories: &[History]) -> usize {
    let mut draft = Draft::begin(schema);
    for &change in changes {
        draft.add(change).expect("it was admitted before");
    }
    let conditions = draft.release().conditions;
    let mut case = Case::default();
    let moves = |history: &&History| {
        case.run(schema, history)
            .expect("it was made on the schema");
        Batch::refusal_of_move(&conditions, &case).is_none()
    };
    histories.iter().filter(moves).count()
}
