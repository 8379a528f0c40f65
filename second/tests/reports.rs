//! Reports written by hand from the rules.

use second::book::{Kind, Level, PLACES, opening_price};
use second::day::report;
use second::files::Random;
use second::record::Price;
use second::text::orders;

/// The report of the day that a text says.
fn play(kind: Kind, text: &str) -> String {
    let file = orders(text).expect("the text says an order file");
    let mut out = Vec::new();
    report(&file, kind, &mut out).expect("memory can be written");
    String::from_utf8(out).expect("a report is text")
}

/// Plays a day, with an investor's account added to each entry that names none, and compares its report at a kind of line.
#[track_caller]
fn expect_at(kind: Kind, day: &[&str], lines: &[&str]) {
    let day: Vec<String> = day
        .iter()
        .map(|line| match line.split(' ').next() {
            Some("buy" | "sell") if line.ends_with("dealer") => format!("{line} ACCOUNT2"),
            Some("buy" | "sell") => format!("{line} investor ACCOUNT1"),
            _ => line.to_string(),
        })
        .collect();
    let report = play(kind, &day.join("\n"));
    assert!(report.is_empty() || report.ends_with('\n'));
    assert_eq!(report.lines().collect::<Vec<_>>(), lines, "at {kind:?}");
}

/// As `expect_at`, where both kinds of line have the same report.
#[track_caller]
fn expect(day: &[&str], lines: &[&str]) {
    expect_at(Kind::Time, day, lines);
    expect_at(Kind::Capacity, day, lines);
}

#[test]
fn a_day_with_every_kind_of_record() {
    expect(
        &[
            "start 1,000",
            "buy 500 at 1,000",
            "sell 300 at 990 dealer",
            "buy 500 at 1,003",
            "open",
            "sell 400 at market",
            "withdraw 3",
            "halt",
            "resume",
            "close",
        ],
        &[
            "0 start at reference 0.1000",
            "1 entry 1: buy 500 at 0.1000: traded 0, waiting 500, lapsed 0",
            "2 entry 2: sell 300 at 0.0990, dealer: traded 0, waiting 300, lapsed 0",
            "3 refused 4 PRICE, layer 2, byte 4",
            "4 sheet of 2 prices",
            "  0.1000 buyers 500 sellers 300 volume 300 imbalance 200",
            "  0.0990 buyers 500 sellers 300 volume 300 imbalance 200",
            "4 opening at 0.1000, volume 300",
            "  trade 1 buys from 2: 300 at 0.1000",
            "5 entry 3: sell 400 at market: traded 200, waiting 200, lapsed 0",
            "  trade 1 buys from 3: 200 at 0.1000",
            "6 withdrawal 3: 200 shares",
            "7 halt",
            "8 resumption",
            "9 closing at 0.1000, lapsed 0",
        ],
    );
}

#[test]
fn two_even_prices_open_at_the_higher_or_the_nearer() {
    for (reference, opening) in [("1,000", "0.1010"), ("998", "0.0990")] {
        expect(
            &[
                &format!("start {reference}"),
                "buy 100 at 1,010",
                "sell 100 at 990",
                "open",
            ],
            &[
                &format!("0 start at reference 0.{:0>4}", reference.replace(',', "")),
                "1 entry 1: buy 100 at 0.1010: traded 0, waiting 100, lapsed 0",
                "2 entry 2: sell 100 at 0.0990: traded 0, waiting 100, lapsed 0",
                "3 sheet of 2 prices",
                "  0.1010 buyers 100 sellers 100 volume 100 imbalance 0",
                "  0.0990 buyers 100 sellers 100 volume 100 imbalance 0",
                &format!("3 opening at {opening}, volume 100"),
                &format!("  trade 1 buys from 2: 100 at {opening}"),
                &format!("end closing at {opening}, lapsed 0"),
            ],
        );
    }
}

#[test]
fn an_opening_pairs_first_with_first() {
    expect(
        &[
            "start 1,000",
            "buy 300 at 1,010",
            "buy 500 at 1,000",
            "buy 200 at 990",
            "sell 400 at 980",
            "sell 300 at 1,000",
            "sell 600 at 1,010",
            "open",
            "close",
        ],
        &[
            "0 start at reference 0.1000",
            "1 entry 1: buy 300 at 0.1010: traded 0, waiting 300, lapsed 0",
            "2 entry 2: buy 500 at 0.1000: traded 0, waiting 500, lapsed 0",
            "3 entry 3: buy 200 at 0.0990: traded 0, waiting 200, lapsed 0",
            "4 entry 4: sell 400 at 0.0980: traded 0, waiting 400, lapsed 0",
            "5 entry 5: sell 300 at 0.1000: traded 0, waiting 300, lapsed 0",
            "6 entry 6: sell 600 at 0.1010: traded 0, waiting 600, lapsed 0",
            "7 sheet of 4 prices",
            "  0.1010 buyers 300 sellers 1300 volume 300 imbalance -1000",
            "  0.1000 buyers 800 sellers 700 volume 700 imbalance 100",
            "  0.0990 buyers 1000 sellers 400 volume 400 imbalance 600",
            "  0.0980 buyers 1000 sellers 400 volume 400 imbalance 600",
            "7 opening at 0.1000, volume 700",
            "  trade 1 buys from 4: 300 at 0.1000",
            "  trade 2 buys from 4: 100 at 0.1000",
            "  trade 2 buys from 5: 300 at 0.1000",
            "8 closing at 0.1000, lapsed 900",
        ],
    );
}

#[test]
fn investors_precede_dealers_at_the_second_kind_of_line() {
    let day = [
        "start 1,000",
        "sell 100 at 1,000 dealer",
        "sell 100 at 1,000",
        "open",
        "sell 100 at 1,000 dealer",
        "sell 100 at 1,000",
        "buy 300 at market",
    ];
    let report = |trades: [&'static str; 3]| {
        let [first, second, third] = trades;
        [
            "0 start at reference 0.1000",
            "1 entry 1: sell 100 at 0.1000, dealer: traded 0, waiting 100, lapsed 0",
            "2 entry 2: sell 100 at 0.1000: traded 0, waiting 100, lapsed 0",
            "3 sheet of 1 prices",
            "  0.1000 buyers 0 sellers 200 volume 0 imbalance -200",
            "3 opening at 0.1000, volume 0",
            "4 entry 3: sell 100 at 0.1000, dealer: traded 0, waiting 100, lapsed 0",
            "5 entry 4: sell 100 at 0.1000: traded 0, waiting 100, lapsed 0",
            "6 entry 5: buy 300 at market: traded 300, waiting 0, lapsed 0",
            first,
            second,
            third,
            "end closing at 0.1000, lapsed 100",
        ]
    };
    let by_time = [
        "  trade 5 buys from 1: 100 at 0.1000",
        "  trade 5 buys from 2: 100 at 0.1000",
        "  trade 5 buys from 3: 100 at 0.1000",
    ];
    let by_capacity = [
        "  trade 5 buys from 2: 100 at 0.1000",
        "  trade 5 buys from 4: 100 at 0.1000",
        "  trade 5 buys from 1: 100 at 0.1000",
    ];
    expect_at(Kind::Time, &day, &report(by_time));
    expect_at(Kind::Capacity, &day, &report(by_capacity));
}

#[test]
fn the_better_price_precedes_the_capacity() {
    expect_at(
        Kind::Capacity,
        &[
            "start 1,000",
            "buy 100 at 990",
            "buy 100 at 1,000 dealer",
            "open",
            "sell 200 at 990",
        ],
        &[
            "0 start at reference 0.1000",
            "1 entry 1: buy 100 at 0.0990: traded 0, waiting 100, lapsed 0",
            "2 entry 2: buy 100 at 0.1000, dealer: traded 0, waiting 100, lapsed 0",
            "3 sheet of 2 prices",
            "  0.1000 buyers 100 sellers 0 volume 0 imbalance 100",
            "  0.0990 buyers 200 sellers 0 volume 0 imbalance 200",
            "3 opening at 0.1000, volume 0",
            "4 entry 3: sell 200 at 0.0990: traded 200, waiting 0, lapsed 0",
            "  trade 2 buys from 3: 100 at 0.1000",
            "  trade 1 buys from 3: 100 at 0.0990",
            "end closing at 0.0990, lapsed 0",
        ],
    );
}

#[test]
fn a_minimum_is_met_by_all_eligible_lines_together() {
    expect(
        &[
            "start 1,000",
            "sell 100 at 1,000",
            "sell 200 at 1,005",
            "open",
            "buy 500 at 1,005 minimum 400",
            "buy 500 at 1,000 immediate-or-cancel minimum 200",
            "buy 500 at 1,005 minimum 300",
        ],
        &[
            "0 start at reference 0.1000",
            "1 entry 1: sell 100 at 0.1000: traded 0, waiting 100, lapsed 0",
            "2 entry 2: sell 200 at 0.1005: traded 0, waiting 200, lapsed 0",
            "3 sheet of 2 prices",
            "  0.1005 buyers 0 sellers 300 volume 0 imbalance -300",
            "  0.1000 buyers 0 sellers 100 volume 0 imbalance -100",
            "3 opening at 0.1000, volume 0",
            "4 refused 13 SHORTFALL, layer 3, byte 0",
            "5 refused 13 SHORTFALL, layer 3, byte 0",
            "6 entry 3: buy 500 at 0.1005, minimum 300: traded 300, waiting 200, lapsed 0",
            "  trade 3 buys from 1: 100 at 0.1000",
            "  trade 3 buys from 2: 200 at 0.1005",
            "end closing at 0.1005, lapsed 200",
        ],
    );
}

#[test]
fn qualifiers_say_what_lapses() {
    expect(
        &[
            "start 1,000",
            "sell 300 at 1,000",
            "open",
            "buy 400 at 1,000 fill-or-kill",
            "buy 400 at market fill-or-kill dealer",
            "buy 200 at 1,000 fill-or-kill",
            "buy 200 at 998 immediate-or-cancel",
            "buy 400 at 1,000 immediate-or-cancel minimum 100 dealer",
            "buy 100 at market immediate-or-cancel",
            "sell 100 at market",
        ],
        &[
            "0 start at reference 0.1000",
            "1 entry 1: sell 300 at 0.1000: traded 0, waiting 300, lapsed 0",
            "2 sheet of 1 prices",
            "  0.1000 buyers 0 sellers 300 volume 0 imbalance -300",
            "2 opening at 0.1000, volume 0",
            "3 entry 2: buy 400 at 0.1000, fill-or-kill: traded 0, waiting 0, lapsed 400",
            "4 entry 3: buy 400 at market, fill-or-kill, dealer: traded 0, waiting 0, lapsed 400",
            "5 entry 4: buy 200 at 0.1000, fill-or-kill: traded 200, waiting 0, lapsed 0",
            "  trade 4 buys from 1: 200 at 0.1000",
            "6 entry 5: buy 200 at 0.0998, immediate-or-cancel: traded 0, waiting 0, lapsed 200",
            "7 entry 6: buy 400 at 0.1000, immediate-or-cancel, minimum 100, dealer: traded 100, waiting 0, lapsed 300",
            "  trade 6 buys from 1: 100 at 0.1000",
            "8 refused 11 EMPTY, layer 3, byte 0",
            "9 refused 11 EMPTY, layer 3, byte 0",
            "end closing at 0.1000, lapsed 0",
        ],
    );
}

#[test]
fn a_market_order_rests_at_its_own_last_price() {
    expect(
        &[
            "start 1,000",
            "sell 100 at 1,000",
            "sell 100 at 1,010",
            "open",
            "buy 500 at market",
            "sell 100 at 1,005",
            "withdraw 3",
        ],
        &[
            "0 start at reference 0.1000",
            "1 entry 1: sell 100 at 0.1000: traded 0, waiting 100, lapsed 0",
            "2 entry 2: sell 100 at 0.1010: traded 0, waiting 100, lapsed 0",
            "3 sheet of 2 prices",
            "  0.1010 buyers 0 sellers 200 volume 0 imbalance -200",
            "  0.1000 buyers 0 sellers 100 volume 0 imbalance -100",
            "3 opening at 0.1000, volume 0",
            "4 entry 3: buy 500 at market: traded 200, waiting 300, lapsed 0",
            "  trade 3 buys from 1: 100 at 0.1000",
            "  trade 3 buys from 2: 100 at 0.1010",
            "5 entry 4: sell 100 at 0.1005: traded 100, waiting 0, lapsed 0",
            "  trade 3 buys from 4: 100 at 0.1010",
            "6 withdrawal 3: 200 shares",
            "end closing at 0.1010, lapsed 0",
        ],
    );
}

#[test]
fn the_band_lets_a_tenth_pass() {
    let band = "refused 10 BAND, layer 3, byte 0";
    expect(
        &[
            "start 1,000",
            "buy 100 at 900",
            "buy 100 at 898",
            "sell 100 at 1,100",
            "sell 100 at 1,105",
            "open",
            "buy 100 at 898 fill-or-kill",
            "sell 100 at 1,105 minimum 100",
        ],
        &[
            "0 start at reference 0.1000",
            "1 entry 1: buy 100 at 0.0900: traded 0, waiting 100, lapsed 0",
            &format!("2 {band}"),
            "3 entry 2: sell 100 at 0.1100: traded 0, waiting 100, lapsed 0",
            &format!("4 {band}"),
            "5 sheet of 2 prices",
            "  0.1100 buyers 0 sellers 100 volume 0 imbalance -100",
            "  0.0900 buyers 100 sellers 0 volume 0 imbalance 100",
            "5 opening at 0.1000, volume 0",
            &format!("6 {band}"),
            &format!("7 {band}"),
            "end closing at 0.1000, lapsed 200",
        ],
    );
}

#[test]
fn records_out_of_turn() {
    let turn = "refused 8 TURN, layer 3, byte 0";
    expect(
        &[
            "withdraw 1",
            "open",
            "close",
            "start 1,001",
            "start 1,000",
            "start 1,000",
            "start 1,001",
            "halt",
            "resume",
            "buy 100 at market",
            "buy 100 at 1,105 fill-or-kill",
            "buy 200 at 1,000 minimum 100",
            "withdraw 1",
            "open",
            "open",
            "resume",
            "halt",
            "halt",
            "open",
            "buy 100 at 1,000",
            "withdraw 1",
            "close",
            "close",
            "start 1,000",
            "buy 150 at 1,000",
            "withdraw 1",
        ],
        &[
            &format!("0 {turn}"),
            &format!("1 {turn}"),
            &format!("2 {turn}"),
            "3 refused 4 PRICE, layer 2, byte 4",
            "4 start at reference 0.1000",
            &format!("5 {turn}"),
            "6 refused 4 PRICE, layer 2, byte 4",
            &format!("7 {turn}"),
            &format!("8 {turn}"),
            &format!("9 {turn}"),
            &format!("10 {turn}"),
            &format!("11 {turn}"),
            "12 refused 16 UNKNOWN, layer 3, byte 0",
            "13 sheet of 0 prices",
            "13 opening at 0.1000, volume 0",
            &format!("14 {turn}"),
            &format!("15 {turn}"),
            "16 halt",
            &format!("17 {turn}"),
            &format!("18 {turn}"),
            &format!("19 {turn}"),
            "20 refused 16 UNKNOWN, layer 3, byte 0",
            "21 closing at 0.1000, lapsed 0",
            &format!("22 {turn}"),
            &format!("23 {turn}"),
            "24 refused 5 QUANTITY, layer 2, byte 8",
            &format!("25 {turn}"),
        ],
    );
}

#[test]
fn the_end_of_a_file() {
    expect(&[], &[]);
    expect(&["text EB"], &["0 refused 1 TAIL, layer 1, byte 0"]);
    expect(&["close"], &["0 refused 8 TURN, layer 3, byte 0"]);
    expect(
        &["start 1,005", "buy 300 at 1,000", "text EB"],
        &[
            "0 start at reference 0.1005",
            "1 entry 1: buy 300 at 0.1000: traded 0, waiting 300, lapsed 0",
            "2 refused 1 TAIL, layer 1, byte 0",
            "end closing at 0.1005, lapsed 300",
        ],
    );
    expect(
        &["start 1,005", "buy 300 at 1,000", "close"],
        &[
            "0 start at reference 0.1005",
            "1 entry 1: buy 300 at 0.1000: traded 0, waiting 300, lapsed 0",
            "2 closing at 0.1005, lapsed 300",
        ],
    );
}

#[test]
fn a_full_book() {
    let mut day = String::from("start 1,000\n");
    day += &"sell 100 at 1,005 investor ACCOUNT1\n".repeat(PLACES);
    day += "\
        sell 100 at 1,010 investor ACCOUNT1
        withdraw 7
        sell 200 at 1,010 investor ACCOUNT1
        open
        buy 100 at 1,000 investor ACCOUNT1
        buy 100 at 1,000 immediate-or-cancel investor ACCOUNT1
        sell 100 at 1,010 dealer ACCOUNT1
        buy 200 at 1,005 investor ACCOUNT1
        buy 100 at 1,000 investor ACCOUNT1
        buy 1,000,000 at market investor ACCOUNT1
        ";
    let report = play(Kind::Time, &day);
    let lines: Vec<&str> = report.lines().collect();
    assert_eq!(
        lines[PLACES..][..15],
        [
            "4096 entry 4096: sell 100 at 0.1005: traded 0, waiting 100, lapsed 0",
            "4097 refused 14 FULL, layer 3, byte 0",
            "4098 withdrawal 7: 100 shares",
            "4099 entry 4097: sell 200 at 0.1010: traded 0, waiting 200, lapsed 0",
            "4100 sheet of 2 prices",
            "  0.1010 buyers 0 sellers 409700 volume 0 imbalance -409700",
            "  0.1005 buyers 0 sellers 409500 volume 0 imbalance -409500",
            "4100 opening at 0.1000, volume 0",
            "4101 refused 14 FULL, layer 3, byte 0",
            "4102 entry 4098: buy 100 at 0.1000, immediate-or-cancel: traded 0, waiting 0, lapsed 100",
            "4103 refused 14 FULL, layer 3, byte 0",
            "4104 entry 4099: buy 200 at 0.1005: traded 200, waiting 0, lapsed 0",
            "  trade 4099 buys from 1: 100 at 0.1005",
            "  trade 4099 buys from 2: 100 at 0.1005",
            "4105 entry 4100: buy 100 at 0.1000: traded 0, waiting 100, lapsed 0",
        ]
    );
    // All the sellers that are left: 4,093 at 0.1005 and one of 200.
    assert_eq!(
        lines[PLACES + 15],
        "4106 entry 4101: buy 1000000 at market: traded 409500, waiting 590500, lapsed 0"
    );
    let trades = &lines[PLACES + 16..lines.len() - 1];
    assert_eq!(trades.len(), PLACES - 2);
    assert_eq!(trades[4], "  trade 4101 buys from 8: 100 at 0.1005");
    assert_eq!(
        trades[PLACES - 3],
        "  trade 4101 buys from 4097: 200 at 0.1010"
    );
    assert_eq!(lines.last(), Some(&"end closing at 0.1010, lapsed 590600"));
}

#[test]
fn the_last_number() {
    let mut day = String::from("start 1,000\nopen\n");
    day += &"buy 100 at 1,000 fill-or-kill investor ACCOUNT1\n".repeat(100_001);
    day += "buy 100 at 1,105 investor ACCOUNT1\n";
    let report = play(Kind::Capacity, &day);
    let lines: Vec<&str> = report.lines().collect();
    assert_eq!(
        lines[100_002..],
        [
            "100001 entry 100000: buy 100 at 0.1000, fill-or-kill: traded 0, waiting 0, lapsed 100",
            "100002 refused 9 SPENT, layer 3, byte 0",
            "100003 refused 9 SPENT, layer 3, byte 0",
            "end closing at 0.1000, lapsed 0",
        ]
    );
}

/// Whether a level passes the five tests, each as it is worded.
fn passes(level: &Level, levels: &[Level], reference: Price) -> bool {
    let size = |l: &Level| l.imbalance().unsigned_abs();
    let distance = |l: &Level| l.price.distance(reference);
    let first = levels.iter().all(|l| l.volume() <= level.volume());
    let second = levels
        .iter()
        .all(|l| l.volume() != level.volume() || size(l) >= size(level));
    let remain: Vec<&Level> = levels
        .iter()
        .filter(|l| l.volume() == level.volume() && size(l) == size(level))
        .collect();
    let all_buyers = remain.iter().all(|l| l.imbalance() > 0);
    let all_sellers = remain.iter().all(|l| l.imbalance() < 0);
    let third = (!all_buyers || remain.iter().all(|l| l.price <= level.price))
        && (!all_sellers || remain.iter().all(|l| l.price >= level.price));
    let highest = remain
        .iter()
        .filter(|l| l.imbalance() > 0)
        .max_by_key(|l| l.price);
    let lowest = remain
        .iter()
        .filter(|l| l.imbalance() < 0)
        .min_by_key(|l| l.price);
    let fourth = match (highest, lowest) {
        (Some(b), Some(s)) if distance(b) < distance(s) => level.price == b.price,
        (Some(b), Some(s)) if distance(b) > distance(s) => level.price == s.price,
        (Some(b), Some(s)) => level.price == b.price.max(s.price),
        _ => true,
    };
    let all_even = remain.iter().all(|l| l.imbalance() == 0);
    let fifth = !all_even
        || remain.iter().all(|l| {
            distance(l) > distance(level)
                || distance(l) == distance(level) && l.price <= level.price
        });
    first && second && third && fourth && fifth
}

#[test]
fn the_opening_price_alone_passes_the_five_tests() {
    let mut random = Random::new(1);
    let mut decided = [0; 6];
    for _ in 0..20_000 {
        let price = |n: u64| Price::new(980 + 10 * n as u32).expect("a multiple of the step");
        let reference = price(random.below(5));
        let lines: Vec<(bool, Price, u64)> = (0..1 + random.below(6))
            .map(|_| {
                (
                    random.one_in(2),
                    price(random.below(5)),
                    100 * (1 + random.below(2)),
                )
            })
            .collect();
        let shares = |buyers: bool, at: &dyn Fn(Price) -> bool| {
            let of_side = lines.iter().filter(|(b, p, _)| *b == buyers && at(*p));
            of_side.map(|(_, _, shares)| shares).sum()
        };
        let mut prices: Vec<Price> = lines.iter().map(|(_, p, _)| *p).collect();
        prices.sort();
        prices.dedup();
        let levels: Vec<Level> = prices
            .into_iter()
            .rev()
            .map(|price| Level {
                price,
                demand: shares(true, &|p| p >= price),
                supply: shares(false, &|p| p <= price),
            })
            .collect();
        let passing: Vec<&Level> = levels
            .iter()
            .filter(|l| passes(l, &levels, reference))
            .collect();
        let [level] = passing[..] else {
            panic!("one price passes, not {passing:?}");
        };
        let opening = opening_price(&levels, reference);
        assert_eq!(opening.volume, level.volume());
        let price = if level.volume() > 0 {
            level.price
        } else {
            reference
        };
        assert_eq!(opening.price, price);
        decided[opening.test.unwrap_or(0) as usize] += 1;
    }
    assert!(decided.iter().all(|n| *n >= 100), "{decided:?}");
}
