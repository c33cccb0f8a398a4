// The sums and figures of a file in case 1, as one would write it by hand, with no check but those that Rust makes: for the benchmark of split_year.
use std::io::{self, Read};

fn main() -> io::Result<()> {
    let mut text = String::new();
    io::stdin().read_to_string(&mut text)?;
    let mut lines = text.lines();
    let heading = lines.next().unwrap();
    let mut begin = lines.next().unwrap().split(';').map(|v| v.parse::<u64>().unwrap());
    let (case, year) = (begin.next().unwrap(), begin.next().unwrap());
    let names: Vec<&str> = lines.next().unwrap().split(';').collect();
    let column = |name: &str| names.iter().position(|n| *n == name).unwrap();
    let (aw, nb, ne, v, e) = (column("AW"), column("Z1NB"), column("Z1NE"), column("Z2V"), column("Z2E"));
    let (mut n, mut import, mut feed_in, mut drawn, mut given) = (0u64, 0u64, 0u64, 0u64, 0u64);
    let (mut grid, mut direct, mut stored) = (0u64, [0u64; 2], [0u64; 2]);
    let mut row = vec![0u64; names.len()];
    for line in lines {
        for (value, field) in row.iter_mut().zip(line.split(';')) {
            *value = field.parse().unwrap();
        }
        let paid = (row[aw] > 0) as usize;
        n += 1;
        import += row[nb];
        feed_in += row[ne];
        drawn += row[v];
        given += row[e];
        grid += row[nb].min(row[v]);
        let out = row[ne].min(row[e]);
        stored[paid] += out;
        direct[paid] += row[ne] - out;
    }
    let plant = drawn - grid;
    let foreign = given.saturating_sub(drawn);
    let whole = (drawn + foreign).max(1);
    let all = stored[0] + stored[1];
    let parts = [(grid, all), (plant, stored[1]), (plant, stored[0]), (foreign, all)];
    let share = |k: usize| parts[k].0 * parts[k].1 / whole;
    let loose: u64 = parts.iter().map(|(a, b)| a * b % whole).sum::<u64>() / whole;
    let loss = if case == 1 { grid as i64 * (drawn as i64 - given as i64) / whole as i64 } else { 0 };
    let levied = (import as i64 - share(0) as i64 - loss).max(0);
    println!("{heading};N;IMPORT;FEEDIN;NETTABLE;LOSS;LEVIED;FUND_DIRECT;FUND_STORED;FUND_ALL;ZERO_DIRECT;ZERO_STORED;FOREIGN;LOOSE");
    println!(
        "{case};{year};{n};{import};{feed_in};{};{loss};{levied};{};{};{};{};{};{};{loose}",
        share(0), direct[1], share(1), direct[1] + share(1), direct[0], share(2), share(3)
    );
    Ok(())
}
