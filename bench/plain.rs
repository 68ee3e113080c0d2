// The published analysis in plain Rust: nothing here is proved. The benchmark runs it beside the proved code.

pub struct Head {
    pub places: usize,
    pub banks: usize,
    pub latency: u64,
    pub period: u64,
}

pub struct Task {
    pub place: usize,
    pub cycles: u64,
    pub earliest: u64,
    pub demands: [u64; 16],
    pub after: Vec<usize>,
    pub name: String,
}

pub struct Plan {
    pub head: Head,
    pub tasks: Vec<Task>,
}

pub struct Dates {
    pub rounds: u32,
    pub release: Vec<u64>,
    pub response: Vec<u64>,
}

// How a round finds the smallest responses for its releases.
pub type Round = fn(&Plan, &[u64]) -> Vec<u64>;

fn number(field: &str) -> u64 {
    field.trim_start().parse().unwrap()
}

fn fields(line: &str) -> Vec<u64> {
    let body = &line[1..];
    (0..body.len() / 10)
        .map(|k| number(&body[10 * k..10 * k + 10]))
        .collect()
}

// Reads a good sheet whose banks have rings.
pub fn read(sheet: &str) -> Plan {
    let mut head = None;
    let mut tasks: Vec<Task> = Vec::new();
    for line in sheet.lines() {
        match &line[..1] {
            "C" => {
                let f = fields(line);
                head = Some(Head {
                    places: f[1] as usize,
                    banks: f[2] as usize,
                    latency: f[3],
                    period: f[4],
                });
            }
            "T" => {
                let f = fields(&line[..31]);
                tasks.push(Task {
                    place: f[0] as usize,
                    cycles: f[1],
                    earliest: f[2],
                    demands: [0; 16],
                    after: Vec::new(),
                    name: line[31..].trim_start().to_string(),
                });
            }
            "M" => {
                let f = fields(line);
                tasks.last_mut().unwrap().demands[f[0] as usize] = f[1];
            }
            _ => {
                let f = fields(line);
                tasks.last_mut().unwrap().after.push(f[0] as usize);
            }
        }
    }
    let head = head.unwrap();
    let mut last = vec![None; head.places];
    for row in 0..tasks.len() {
        if let Some(before) = last[tasks[row].place].replace(row) {
            if !tasks[row].after.contains(&before) {
                tasks[row].after.push(before);
            }
        }
    }
    Plan { head, tasks }
}

fn meet(plan: &Plan, release: &[u64], response: &[u64], i: usize, k: usize) -> bool {
    plan.tasks[i].place != plan.tasks[k].place
        && release[i] < release[k] + response[k]
        && release[k] < release[i] + response[i]
}

// What task i takes at worst: bank by bank, the ring's bound over the demands of all that it meets.
fn worst(plan: &Plan, release: &[u64], response: &[u64], i: usize) -> u64 {
    let mut loads = [[0u64; 32]; 16];
    for (k, task) in plan.tasks.iter().enumerate() {
        if meet(plan, release, response, i, k) {
            for bank in 0..plan.head.banks {
                loads[bank][task.place] += task.demands[bank];
            }
        }
    }
    let task = &plan.tasks[i];
    let mut services = 0;
    for bank in 0..plan.head.banks {
        let own = task.demands[bank];
        services += own;
        for place in 0..plan.head.places {
            if place != task.place {
                services += loads[bank][place].min(own);
            }
        }
    }
    task.cycles + plan.head.latency * services
}

fn alone(plan: &Plan) -> Vec<u64> {
    plan.tasks
        .iter()
        .map(|t| t.cycles + plan.head.latency * t.demands.iter().sum::<u64>())
        .collect()
}

// All responses together, again and again, until none changes.
pub fn together(plan: &Plan, release: &[u64]) -> Vec<u64> {
    let mut response = alone(plan);
    loop {
        let next: Vec<u64> = (0..plan.tasks.len())
            .map(|i| worst(plan, release, &response, i))
            .collect();
        if next == response {
            return response;
        }
        response = next;
    }
}

// One task after the other in the order of release: whether two tasks meet depends only on the response of the one released first.
pub fn in_order(plan: &Plan, release: &[u64]) -> Vec<u64> {
    let mut response = alone(plan);
    let mut order: Vec<usize> = (0..plan.tasks.len()).collect();
    order.sort_by_key(|&i| release[i]);
    for i in order {
        loop {
            let next = worst(plan, release, &response, i);
            if next == response[i] {
                break;
            }
            response[i] = next;
        }
    }
    response
}

fn renew(plan: &Plan, response: &[u64]) -> Vec<u64> {
    let mut release = Vec::with_capacity(plan.tasks.len());
    for task in &plan.tasks {
        let mut date = task.earliest;
        for &k in &task.after {
            date = date.max(release[k] + response[k]);
        }
        release.push(date);
    }
    release
}

pub fn dates(plan: &Plan, round: Round) -> Dates {
    let mut release = renew(plan, &alone(plan));
    let mut rounds = 0;
    loop {
        rounds += 1;
        let response = round(plan, &release);
        let new = renew(plan, &response);
        if new == release {
            return Dates {
                rounds,
                release,
                response,
            };
        }
        release = new;
    }
}

// The listing: granted dates, or the lowest late row.
pub fn list(plan: &Plan, dates: &Dates) -> String {
    let finish = |i: usize| dates.release[i] + dates.response[i];
    if let Some(i) = (0..plan.tasks.len()).find(|&i| plan.head.period < finish(i)) {
        return format!("L{:>10}{:>16}\n", i, finish(i));
    }
    let mut text = format!("G{:>10}\n", dates.rounds);
    for (i, task) in plan.tasks.iter().enumerate() {
        let (release, response) = (dates.release[i], dates.response[i]);
        text += &format!(
            "R{:>10}{:>10}{:>10}{:>10} {:>12}\n",
            i,
            release,
            response,
            release + response,
            task.name
        );
    }
    text
}
