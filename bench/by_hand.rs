// The drill's decisions by hand, as a yardstick: a scan of all policies, and exact hash maps by database and table.
// usage: by_hand SEED POLICIES REQUESTS
use std::collections::HashMap;
use std::time::Instant;

struct Draws(u64);

impl Draws {
    fn draw(&mut self, k: u64) -> u64 {
        self.0 = self.0.wrapping_mul(6364136223846793005).wrapping_add(1442695040888963407);
        (self.0 >> 33) % k
    }
}

struct Policy {
    database: String,
    table: String,
    prefix: bool,
    first: bool,
    user: String,
    deny: bool,
}

struct Request {
    user: String,
    database: String,
    table: String,
}

fn policy(draws: &mut Draws, n: u64) -> Policy {
    let database = format!("db{}", draws.draw(50));
    let prefix = draws.draw(4) == 0;
    let first = draws.draw(16) == 0;
    let user = format!("u{}", draws.draw(100));
    draws.draw(2); // `all` or `select`: both grant `select`
    let deny = draws.draw(8) == 0;
    Policy { database, table: format!("t{n}"), prefix, first, user, deny }
}

fn request(draws: &mut Draws, policies: u64) -> Request {
    let user = format!("u{}", draws.draw(100));
    let database = format!("db{}", draws.draw(50));
    let table = if policies == 0 { 1 } else { 1 + draws.draw(policies) };
    Request { user, database, table: format!("t{table}") }
}

/// The cell that is filled first decides: those of priority 1 before the others, denials before allowances.
fn cell(policy: &Policy) -> usize {
    2 * usize::from(!policy.first) + usize::from(!policy.deny)
}

fn allowed(best: Option<usize>) -> bool {
    best.is_some_and(|cell| cell % 2 == 1)
}

fn scan(policies: &[Policy], request: &Request) -> bool {
    let lies = |p: &Policy| p.database == request.database && if p.prefix { request.table.starts_with(&p.table) } else { p.table == request.table };
    allowed(policies.iter().filter(|p| p.user == request.user && lies(p)).map(cell).min())
}

type Index<'a> = HashMap<(&'a str, &'a str), Vec<&'a Policy>>;

fn look_up(exact: &Index, prefixes: &Index, request: &Request) -> bool {
    let own = exact.get(&(request.database.as_str(), request.table.as_str())).into_iter().flatten();
    let below = (2..=request.table.len()).filter_map(|end| prefixes.get(&(request.database.as_str(), &request.table[..end]))).flatten();
    allowed(own.chain(below).filter(|p| p.user == request.user).map(|p| cell(p)).min())
}

fn tell(what: &str, requests: &[Request], decide: impl Fn(&Request) -> bool) {
    let begun = Instant::now();
    let given = requests.iter().filter(|r| decide(r)).count();
    println!("{what}: {:.3} s, allowed={given}", begun.elapsed().as_secs_f64());
}

fn main() {
    let numbers: Vec<u64> = std::env::args().skip(1).map(|word| word.parse().expect("a number")).collect();
    let (mut draws, many) = (Draws(numbers[0]), numbers[1]);
    let policies: Vec<Policy> = (1..=many).map(|n| policy(&mut draws, n)).collect();
    let requests: Vec<Request> = (0..numbers[2]).map(|_| request(&mut draws, many)).collect();
    let (mut exact, mut prefixes) = (Index::new(), Index::new());
    for p in &policies {
        let index = if p.prefix { &mut prefixes } else { &mut exact };
        index.entry((&p.database, &p.table)).or_default().push(p);
    }
    tell("hash maps by hand", &requests, |r| look_up(&exact, &prefixes, r));
    tell("a scan by hand", &requests, |r| scan(&policies, r));
}
