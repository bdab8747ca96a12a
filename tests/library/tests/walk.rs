//! The walk of the library against the second implementation, the newest reader's walk against those
//! of older levels, a walk under 0xFFFF against one under 0x8800, and long walks under fixed types.

use library::compare::{Pair, agreed};
use library::levels::{Choice, Older};
use library::twins::{Shown, Twins};
use second::calls::{self, Call, Habits, Step};
use second::cases::{CASES_K, REPORTS_K, card_b};
use second::images::{Card, block};
use second::layout::{LARGE, LAYOUTS, Layout, SIZES, SMALL};
use second::random::Random;
use second::reader::{self, Arguments, NEWEST_LEVEL};
use second::walk::{AUTOSENSE, EMPTY_CONNECTION, NONE, ROW_LENGTH, Rows, Walk, fast};
use std::io::{self, Write as _};
use std::thread;

const HIGHEST_REFUSAL: usize = 38;
const LEAST_OFTEN: usize = 1_000;
const LEAST_LISTS: usize = 200_000;
const LEAST_OLDER_LISTS: usize = 100_000;

/// What demand 3 speaks of is met so often at each older level, in each layout.
const LEAST_SEEN: usize = 300;

/// The numbers that a load can answer: the reader's, 12 apart, and 21.
const LOAD_NUMBERS: [usize; 23] = [
    0, 21, 1, 2, 3, 4, 29, 30, 5, 6, 7, 38, 8, 9, 10, 11, 13, 14, 15, 16, 17, 18, 31,
];
const LOOK_NUMBERS: [usize; 5] = [0, 19, 20, 32, 23];

/// How often load and look answered each number, at each size, and how many clears and lists were
/// compared.
struct Tally {
    loads: [[usize; HIGHEST_REFUSAL + 1]; SIZES.len()],
    looks: [[usize; HIGHEST_REFUSAL + 1]; SIZES.len()],
    clears: usize,
    lists: usize,
}

impl Tally {
    const EMPTY: Self = Self {
        loads: [[0; HIGHEST_REFUSAL + 1]; SIZES.len()],
        looks: [[0; HIGHEST_REFUSAL + 1]; SIZES.len()],
        clears: 0,
        lists: 0,
    };

    /// Counts a call at the size of its image, or of the image that was tried last.
    fn count(&mut self, call: &Call, size: u16, number: u8) {
        let is_large = usize::from(size == LARGE);
        match call {
            Call::Load => self.loads[is_large][usize::from(number)] += 1,
            Call::Look(_) => self.looks[is_large][usize::from(number)] += 1,
            Call::Clear => self.clears += 1,
        }
    }

    fn add(&mut self, other: &Self) {
        let sums = self.loads.iter_mut().chain(&mut self.looks).flatten();
        let terms = other.loads.iter().chain(&other.looks).flatten();
        sums.zip(terms).for_each(|(sum, often)| *sum += often);
        self.clears += other.clears;
        self.lists += other.lists;
    }
}

/// Lists on two images, which may be of two sizes.
fn random_lists(seed: u64, lists: usize) -> Tally {
    let (mut tally, mut random) = (Tally::EMPTY, Random::new(seed));
    while tally.lists < lists {
        let mut pair = agreed(Pair::fresh());
        let mut size = SMALL;
        for step in calls::steps(&mut random) {
            let number = agreed(pair.step(&step));
            let call = match step {
                Step::Load(_, arguments) => {
                    size = arguments.layout.size;
                    Call::Load
                }
                Step::Look(report) => Call::Look(report),
                Step::Clear => Call::Clear,
            };
            tally.count(&call, size, number);
        }
        tally.lists += 1;
    }
    tally
}

/// "23 looks at 65,535": walks under each autosensed type, and under fixed ones, that look as
/// often, some with a switch at each look, and lists of calls after that.
fn spent_looks() -> Tally {
    let (mut tally, mut random) = (Tally::EMPTY, Random::new(100));
    let sia = |code| block::sia(code, None, 0, 0);
    // With the switches of those whose two links are up in turn.
    let cards = [
        (
            Card::tidy(21143, 0x0800, vec![sia(0), sia(1)]),
            Some(65_535),
        ),
        (Card::tidy(21143, 0x8800, vec![sia(0), sia(1)]), Some(1)),
        (Card::tidy(21143, 0xFFFF, vec![sia(0), sia(1)]), Some(1)),
        (
            Card::tidy(21041, 0x0900, vec![vec![0], vec![1]]),
            Some(65_535),
        ),
        (Card::tidy(21143, 0x0001, vec![sia(0), sia(1)]), Some(1)),
        (Card::tidy(21041, 0x0400, vec![vec![0], vec![1]]), Some(1)),
    ];
    let longest = LAYOUTS.map(|layout| (Card::longest(&mut random, layout), None));
    for (card, switches) in cards.into_iter().chain(longest) {
        let image = card.image();
        let arguments = Arguments::newest(card.leaves[0].chip).laid_out(card.layout());
        let mut pair = agreed(Pair::fresh());
        let mut call = |pair: &mut Pair, call: &Call| {
            let number = agreed(pair.call(call, &image, arguments));
            tally.count(call, arguments.layout.size, number);
            number
        };
        assert_eq!(call(&mut pair, &Call::Load), 0);
        let habits = Habits {
            blocks: card.leaves[0].blocks.len(),
            rarity: 4,
        };
        let mut accepted = 0;
        while accepted < usize::from(u16::MAX) {
            let look = Call::Look(match switches {
                Some(_) => vec![(accepted % 2) as u8, (1 - accepted % 2) as u8],
                None => habits.report(&mut random),
            });
            match call(&mut pair, &look) {
                0 => accepted += 1,
                number => assert_eq!(number, 19, "after {accepted} looks"),
            }
        }
        let spent = pair.library;
        assert_eq!(spent.looks, 65_535);
        if let Some(switches) = switches {
            assert_eq!(spent.switches, switches);
        }
        for _ in 0..LEAST_OFTEN {
            let look = Call::Look(habits.report(&mut random));
            assert_eq!(call(&mut pair, &look), 23);
        }
        assert_eq!(pair.library, spent);
        for later in habits.list(&mut random, 1_000) {
            call(&mut pair, &later);
        }
        tally.lists += 1;
    }
    tally
}

/// "the autosense walk takes document 01's steps", and "a refusal is exact": two hundred thousand
/// lists, in which each refusal of load and look is met a thousand times at each size. The table of
/// them goes to the standard error stream itself, so that a run that passes shows it too.
#[test]
fn library_walks_as_second() {
    let mut total = Tally::EMPTY;
    thread::scope(|scope| {
        let mut threads = vec![scope.spawn(spent_looks)];
        threads.extend((1..=4).map(|seed| scope.spawn(move || random_lists(seed, 56_000))));
        for thread in threads {
            total.add(&thread.join().expect("compares equal"));
        }
    });
    let titles = ["load", "look"].map(|call| SIZES.map(|size| format!("{call} {size}")));
    let mut table = row("number", titles.as_flattened());
    for number in 0..=HIGHEST_REFUSAL {
        let cells = [total.loads, total.looks].map(|calls| calls.map(|often| often[number]));
        if cells.as_flattened().iter().any(|&often| often > 0) {
            table += &row(&number.to_string(), cells.as_flattened());
        }
    }
    table += &format!("{} lists, {} clears\n", total.lists, total.clears);
    print(&table);
    for (loads, looks) in total.loads.iter().zip(&total.looks) {
        assert_answered("load", loads, &LOAD_NUMBERS);
        assert_answered("look", looks, &LOOK_NUMBERS);
    }
    assert!(total.lists >= LEAST_LISTS, "only {} lists", total.lists);
}

/// A call has answered each number that it can a thousand times, and no other.
fn assert_answered(call: &str, often: &[usize], can_answer: &[usize]) {
    for (number, &often) in often.iter().enumerate() {
        let is_right = match can_answer.contains(&number) {
            true => often >= LEAST_OFTEN,
            false => often == 0,
        };
        assert!(is_right, "{call} answered {number} {often} times");
    }
}

/// "k b, reports 000, 101, 100: none, block 2, block 0, 2 switches; under 0x8800: none, 2, 2, 1
/// switch", and so under 0xFFFF.
#[test]
fn case_k() {
    for case in CASES_K {
        let image = card_b(case.connection).image();
        let walked = library::load(library::fresh(), &image, Arguments::newest(21143));
        assert_eq!(walked.number, 0);
        let mut walk = walked.walk;
        for (report, selected) in REPORTS_K.iter().zip(case.selected) {
            let walked = library::look(walk, report);
            assert_eq!((walked.number, walked.walk.selected), (0, selected));
            walk = walked.walk;
        }
        assert_eq!((walk.looks, walk.switches), (3, case.switches));
    }
}

/// "Such a card walks as 0x8800 does": of two walks that are equal but for the connection type,
/// each look of a list answers the same number and leaves them equal but for it. The walks have
/// read a card with an empty connection word, or have anything in their fields.
#[test]
fn empty_connection_walks_as_0x8800() {
    let mut random = Random::new(202);
    let mut numbers = [[0; HIGHEST_REFUSAL + 1]; 2];
    let mut totals = [Shown::default(); 2];
    for _ in 0..20_000 {
        let sample = calls::emptied(&mut random);
        let walked = library::load(library::fresh(), &sample.card.image(), sample.arguments);
        assert_eq!(
            (walked.number, walked.walk.connection),
            (0, EMPTY_CONNECTION)
        );
        let walks = [walked.walk, any_walk(&mut random)];
        for ((walk, numbers), total) in walks.into_iter().zip(&mut numbers).zip(&mut totals) {
            let habits = Habits::new(&mut random, walk.blocks.into());
            let reports = habits.reports(&mut random, 8);
            let count = |number: u8| numbers[usize::from(number)] += 1;
            total.add(agreed(Twins::of(walk).look_at_all(&reports, count)));
        }
    }
    print(&format!("0xFFFF as 0x8800: {totals:?}\n"));
    assert_answered("look at a loaded walk", &numbers[0], &[0, 19]);
    assert_answered("look at any walk", &numbers[1], &[0, 19, 20, 23]);
    for total in totals {
        assert!(total.kept >= LEAST_OFTEN, "{totals:?}");
    }
}

/// "A look under a fixed type selects the first listed block for it ... Link bytes are still judged
/// by 19 but don't matter": over long lists every accepted look selects one block, whatever the
/// report, and the first alone may be a switch. "32 no listed block has the fixed medium": all are
/// refused. The walks have read a card with a fixed type, or have anything in their fields, any
/// fixed type too.
#[test]
fn fixed_looks_select_one_block() {
    let mut random = Random::new(203);
    let mut numbers = [[0; HIGHEST_REFUSAL + 1]; 2];
    for _ in 0..8_000 {
        let sample = calls::fixed(&mut random);
        let (image, arguments) = (sample.card.image(), sample.arguments);
        let walked = library::load(library::fresh(), &image, arguments);
        assert_eq!(walked, fast::load(fast::fresh(), &image, arguments));
        assert_eq!(walked.number, 0);
        let any = any_walk(&mut random);
        let any = Walk {
            // All autosensed types have bit 11.
            connection: any.connection & !AUTOSENSE,
            // As every walk that only calls have changed.
            switches: any.switches.min(any.looks),
            ..any
        };
        for (start, numbers) in [walked.walk, any].into_iter().zip(&mut numbers) {
            let choice = start.fixed_choice().map(|block| block as u8);
            let habits = Habits::new(&mut random, start.blocks.into());
            let mut walk = start;
            for report in habits.reports(&mut random, 48) {
                let walked = library::look(walk, &report);
                assert_eq!(walked, fast::look(walk, &report));
                if walked.number == 0 {
                    let Walk {
                        settled,
                        selected,
                        switches,
                        ..
                    } = walked.walk;
                    assert_eq!((settled, Some(selected)), (true, choice));
                    assert!(switches - start.switches <= 1, "{switches} switches");
                }
                assert_eq!(walked.number == 32, walk.loaded && choice.is_none());
                numbers[usize::from(walked.number)] += 1;
                walk = walked.walk;
            }
        }
    }
    print(&format!(
        "under fixed types: {:?}\n",
        numbers.map(|it| it[0])
    ));
    assert_answered("look at a loaded walk", &numbers[0], &[0, 19, 32]);
    assert_answered("look at any walk", &numbers[1], &LOOK_NUMBERS);
}

/// A walk with anything in its fields, mostly loaded.
fn any_walk(random: &mut Random) -> Walk {
    let mut number = || {
        let any = random.byte();
        random.pick(&[0, 1, 3, 90, 127, 0x80, 254, NONE, any])
    };
    let (blocks, default_number, selected) = (number(), number(), number());
    let mut row = || [(); ROW_LENGTH].map(|()| random.pick(&[0, 0, 1, 1, 2, 255]));
    let (listed, active_invalid, fixed) = (row(), row(), row());
    let mut count = || {
        let any = random.word();
        random.pick(&[0, u16::MAX - 1, u16::MAX, any, any, any])
    };
    let (looks, switches) = (count(), count());
    Walk {
        loaded: !random.one_in(16),
        connection: random.word(),
        blocks,
        rows: Rows {
            listed,
            active_invalid,
            fixed,
        },
        default_number,
        settled: random.one_in(2),
        selected,
        looks,
        switches,
    }
}

/// What the newest and an older level were seen to do.
#[derive(Debug, Default)]
struct Levels {
    lists: usize,
    /// Lists on an image with power blocks, which no older level knows.
    with_power: usize,
    /// Lists under both conditions of an autosensed type, with a removed entry in the newest table.
    with_removed: usize,
    /// Looks in those that were accepted, that left a block selected, and that left one under an empty
    /// connection word.
    looks: usize,
    selections: usize,
    under_empty: usize,
    /// Lists with a removed default, and those in which the walks were seen to differ.
    with_default: usize,
    default_differs: usize,
    /// Lists with a removed entry up in an accepted look, and those in which the walks differ.
    with_up: usize,
    up_differs: usize,
    /// Lists under a fixed type whose choice the older level lists, and their accepted looks.
    choice_listed: usize,
    choice_looks: usize,
    /// Lists under a fixed type without a choice, and their looks at a loaded walk.
    choice_missing: usize,
    missing_looks: usize,
    /// Lists under a fixed type with a removed choice, and those in which the walks differ.
    choice_removed: usize,
    choice_differs: usize,
}

/// Lists on images of one layout that the newest reader accepts, at each level below the newest.
fn older_levels(layout: Layout, images: usize) -> (Tally, [Levels; NEWEST_LEVEL as usize]) {
    let (mut tally, mut random) = (Tally::EMPTY, Random::new(201));
    let mut levels: [Levels; NEWEST_LEVEL as usize] = Default::default();
    for _ in 0..images {
        let sample = calls::accepted(&mut random, layout);
        let image = sample.card.image();
        let blocks = calls::block_count(&image, sample.arguments);
        let (newest, _) = reader::read_all(&image, sample.arguments);
        for (level, seen) in levels.iter_mut().enumerate() {
            let older = Older::new(&image, sample.arguments, level as u8)
                .expect("the newest reader accepts it");
            agreed(older.compare_tables());
            let habits = Habits::new(&mut random, blocks);
            let length = 2 + random.below(16);
            let list = habits.list(&mut random, length);
            // What the list showed, and whether the walks differ, which they must not where it is
            // promised.
            let mut run = |list: &[Call]| {
                tally.lists += 1;
                let count = |call: &Call, number| tally.count(call, layout.size, number);
                let mut shown = agreed(older.run(list, count));
                let difference = shown.difference.take();
                let differs = difference.is_some();
                if older.is_promised(&shown) {
                    agreed(difference.map_or(Ok(()), Err));
                }
                (shown, differs)
            };
            seen.lists += 1;
            seen.with_power += usize::from(newest.power > 0);
            let (shown, differs) = run(&older.keep_down(list.clone()));
            match older.choice {
                Some(Choice::Listed) => {
                    seen.choice_listed += 1;
                    seen.choice_looks += shown.looks;
                    continue;
                }
                Some(Choice::Missing) => {
                    assert_eq!(shown.without_medium, [shown.loaded_looks; 2], "{list:?}");
                    seen.choice_missing += 1;
                    seen.missing_looks += shown.loaded_looks;
                    continue;
                }
                Some(Choice::Removed { has_other }) => {
                    // The older level selects the other, or is refused with 32, which stands "in
                    // 22's place" and so before the newest's 19.
                    let refused = match has_other {
                        true => 0,
                        false => shown.loaded_looks,
                    };
                    assert_eq!(shown.without_medium, [0, refused], "{list:?}");
                    assert_eq!(differs, shown.looks + refused > 0, "{list:?}");
                    seen.choice_removed += 1;
                    seen.choice_differs += usize::from(differs);
                    continue;
                }
                None if older.is_default_removed => {
                    seen.with_default += 1;
                    seen.default_differs += usize::from(differs);
                    continue;
                }
                None => {}
            }
            seen.with_removed += usize::from(!older.removed.is_empty());
            seen.looks += shown.looks;
            seen.selections += shown.selections;
            if newest.connection == EMPTY_CONNECTION {
                seen.under_empty += shown.selections;
            }
            let (shown, differs) = run(&list);
            seen.with_up += usize::from(shown.had_removed_up);
            seen.up_differs += usize::from(differs);
        }
    }
    (tally, levels)
}

/// Demand 3: under its conditions both walks are alike after each call of every list, whatever the
/// older level; with a removed default, or a removed entry up, differences are found at each level
/// that removes entries. Levels 5 and 6 remove none, since types 5 and 6 have none. "the older
/// reader's promise covers both" layouts, here of either size, and "older and newer walks must match"
/// under 0xFFFF too. "Under a fixed type one condition replaces demand 3's two": with a choice that
/// the older level lists and with none they are alike, and with none both refuse every look at a
/// loaded walk with 32. With a removed choice they differ exactly if the newest accepts a look, or the
/// older refuses one with 32.
#[test]
fn older_walks_as_newest() {
    let seen = thread::scope(|scope| {
        LAYOUTS
            .map(|layout| scope.spawn(move || older_levels(layout, 16_000)))
            .map(|thread| thread.join().expect("the levels agree"))
    });
    for (layout, (tally, levels)) in LAYOUTS.into_iter().zip(seen) {
        print(&format!("{layout:?}\n{}", levels_table(&levels)));
        for (level, seen) in levels.iter().enumerate() {
            assert!(seen.looks > LEAST_SEEN, "level {level}: {seen:?}");
            assert!(seen.selections > LEAST_SEEN, "level {level}: {seen:?}");
            assert!(seen.under_empty > LEAST_SEEN, "level {level}: {seen:?}");
            assert!(seen.with_power > LEAST_SEEN, "level {level}: {seen:?}");
            let fixed = [
                seen.choice_listed,
                seen.choice_looks,
                seen.choice_missing,
                seen.missing_looks,
            ];
            assert!(
                fixed.iter().min() > Some(&LEAST_SEEN),
                "level {level}: {seen:?}"
            );
            let with = [
                seen.with_removed,
                seen.with_default,
                seen.with_up,
                seen.choice_removed,
            ];
            let differ = [seen.up_differs, seen.choice_differs];
            let are_right = match level {
                5 | 6 => with == [0; 4],
                _ => {
                    seen.with_removed > LEAST_SEEN
                        && seen.default_differs > 0
                        && differ.iter().min() > Some(&LEAST_SEEN)
                }
            };
            assert!(are_right, "level {level}: {seen:?}");
        }
        assert!(tally.lists >= LEAST_OLDER_LISTS, "only {}", tally.lists);
    }
}

/// A row for each older level.
fn levels_table(levels: &[Levels]) -> String {
    let titles = [
        "lists", "power", "removed", "looks", "selected", "empty", "default", "differ", "up",
        "differ", "choice", "looks", "none", "looks", "lost", "differ",
    ];
    let mut table = row("older", &titles);
    for (level, seen) in levels.iter().enumerate() {
        let cells = [
            seen.lists,
            seen.with_power,
            seen.with_removed,
            seen.looks,
            seen.selections,
            seen.under_empty,
            seen.with_default,
            seen.default_differs,
            seen.with_up,
            seen.up_differs,
            seen.choice_listed,
            seen.choice_looks,
            seen.choice_missing,
            seen.missing_looks,
            seen.choice_removed,
            seen.choice_differs,
        ];
        table += &row(&level.to_string(), &cells);
    }
    table
}

/// "The two conditions" of demand 3, each broken alone: a removed default with all links down, and
/// a removed entry up. And that of a fixed type: a removed choice, where the older walk is refused
/// with 32, or selects another block.
#[test]
fn conditions_are_needed() {
    let media = |connection, command| {
        let blocks = vec![block::sia(0, None, 0, 0), block::symbol(3, 0, 0, command)];
        Card::tidy(21143, connection, blocks)
    };
    // The number that a look answers, and the block that is selected then.
    let looked = |card: &Card, level, report: &[u8]| {
        let arguments = Arguments::at_level(card.leaves[0].chip, level);
        let loaded = library::load(library::fresh(), &card.image(), arguments);
        assert_eq!(loaded.number, 0);
        let looked = library::look(loaded.walk, report);
        (looked.number, looked.walk.selected)
    };
    for older in 3..=4 {
        let with_default = media(0x0800, reader::DEFAULT);
        assert_eq!(looked(&with_default, NEWEST_LEVEL, &[0, 0]), (0, 1));
        assert_eq!(looked(&with_default, older, &[0, 0]), (0, NONE));
        let without = media(0x0800, 0);
        assert_eq!(looked(&without, NEWEST_LEVEL, &[1, 1]), (0, 1));
        assert_eq!(looked(&without, older, &[1, 1]), (0, 0));
        let fixed = media(0x0003, 0);
        assert_eq!(looked(&fixed, NEWEST_LEVEL, &[0, 0]), (0, 1));
        assert_eq!(looked(&fixed, older, &[0, 0]), (32, NONE));
    }
    let blocks = vec![block::compact(0, 0, 0), block::non_mii(0, 0, 0)];
    let fixed = Card::tidy(21140, 0x0000, blocks);
    assert_eq!(looked(&fixed, NEWEST_LEVEL, &[0, 0]), (0, 1));
    assert_eq!(looked(&fixed, 0, &[0, 0]), (0, 0));
}

fn print(table: &str) {
    io::stderr()
        .write_all(table.as_bytes())
        .expect("standard error is open");
}

fn row(first: &str, cells: &[impl ToString]) -> String {
    let cells = cells.iter().map(|cell| format!("{:>9}", cell.to_string()));
    format!("{first:<8}{}\n", cells.collect::<String>())
}
