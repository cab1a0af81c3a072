//! Writes the sample that the program `replay` reads: lists of managed calls with the answers of
//! the published Rust, with 23 where the data of an update are refused, and with whether factors
//! are ready. README.md has the form. The seed is fixed, so the bytes are always the same.

#![allow(dead_code)]

#[path = "../../tests/differential/data.rs"]
mod data;
#[path = "../../tests/differential/random.rs"]
mod random;

use data::{make_finite, near, unused_value, Profile, MANAGED};
use random::Random;
use rlumod::api::{ColumnIndex, LuMod, RowIndex, SolveError, StorageError, UpdateError, Workspace};

const SEED: u64 = 55;
const LISTS: usize = 420;
/// How many lists about ready follow them.
const READY_LISTS: usize = 60;
const FIRST_WORD: &[u8; 8] = b"LUMOD 1\n";
const LARGEST_CAPACITY: usize = 15;
const NOTHING: usize = usize::MAX;
const INSUFFICIENT_WORKSPACE: usize = 8;
const NON_FINITE_DATA: usize = 23;

#[derive(Clone, Copy, PartialEq)]
enum Function {
    Push = 1,
    ReplaceRow,
    ReplaceColumn,
    Remove,
    Solve,
    SolveTranspose,
    Ready,
    FromStorage,
}

use Function::*;

impl Function {
    fn is_update(self) -> bool {
        matches!(self, Push | ReplaceRow | ReplaceColumn | Remove)
    }

    fn lends_data(self) -> bool {
        self.is_update() && self != Remove
    }

    fn is_solve(self) -> bool {
        matches!(self, Solve | SolveTranspose)
    }
}

/// A call with the lengths, the dimension and the capacity that it lends.
struct Call {
    function: Function,
    l: usize,
    u: usize,
    y: usize,
    z: usize,
    w: usize,
    dimension: usize,
    capacity: usize,
    row: usize,
    column: usize,
    diagonal: f64,
    first: Vec<f64>,
    second: Vec<f64>,
}

impl Call {
    /// Its vectors and its diagonal, whether or not its function is lent them.
    fn numbers(&mut self) -> Vec<&mut f64> {
        let vectors = self.first.iter_mut().chain(&mut self.second);
        vectors.chain([&mut self.diagonal]).collect()
    }
}

struct Answer {
    number: usize,
    dimension: usize,
    index: usize,
    moved_row: usize,
    moved_column: usize,
}

/// Factors with their storage and workspaces, as far as they can be lent.
#[derive(Clone)]
struct Instance {
    n: usize,
    c: usize,
    l: Vec<f64>,
    u: Vec<f64>,
    work: [Vec<f64>; 3],
}

fn main() {
    let path = std::env::args().nth(1).expect("usage: make_sample FILE");
    let mut random = Random::new(SEED);
    let mut sample = Sample {
        bytes: FIRST_WORD.to_vec(),
        answers: [0; 24],
    };
    sample.size(LISTS + READY_LISTS);
    for list in 0..LISTS {
        add_list(list, &mut sample, &mut random);
    }
    for _ in 0..READY_LISTS {
        add_ready_list(&mut sample, &mut random);
    }
    let words = sample.bytes.chunks(8);
    let sum = words.fold(0u64, |sum, word| {
        sum.wrapping_add(u64::from_le_bytes(word.try_into().unwrap()))
    });
    sample.word(sum);
    println!("{} bytes, answers {:?}", sample.bytes.len(), sample.answers);
    std::fs::write(path, sample.bytes).expect("the sample cannot be written");
}

struct Sample {
    bytes: Vec<u8>,
    answers: [usize; 24],
}

impl Sample {
    fn word(&mut self, word: u64) {
        self.bytes.extend(word.to_le_bytes());
    }

    fn size(&mut self, size: usize) {
        self.word(size as u64);
    }

    /// All NaNs are written alike.
    fn double(&mut self, value: f64) {
        self.word(if value.is_nan() {
            0x7ff8 << 48
        } else {
            value.to_bits()
        });
    }

    fn vector(&mut self, values: &[f64]) {
        values.iter().for_each(|&value| self.double(value));
    }

    /// Row by row, the row of L and then that of U.
    fn factors(&mut self, instance: &Instance) {
        for i in 0..instance.n {
            self.vector(instance.l_row(i));
            self.vector(instance.u_row(i));
        }
    }

    fn call(&mut self, call: &Call) {
        let lengths = [
            call.l,
            call.u,
            call.y,
            call.z,
            call.w,
            call.first.len(),
            call.second.len(),
        ];
        self.bytes.push(call.function as u8);
        self.bytes
            .extend(lengths.map(|length| u8::try_from(length).unwrap()));
        for size in [call.dimension, call.capacity, call.row, call.column] {
            self.size(size);
        }
        self.double(call.diagonal);
        self.vector(&call.first);
        self.vector(&call.second);
    }

    fn answer(&mut self, answer: &Answer) {
        let Answer {
            number,
            dimension,
            index,
            moved_row,
            moved_column,
        } = *answer;
        for size in [number, dimension, index, moved_row, moved_column] {
            self.size(size);
        }
        self.answers[number] += 1;
    }
}

impl Instance {
    fn l_row(&self, i: usize) -> &[f64] {
        &self.l[i * self.c..][..self.n]
    }

    /// From the diagonal on.
    fn u_row(&self, i: usize) -> &[f64] {
        &self.u[u_start(self.c, i)..][..self.n - i]
    }

    /// Anything at all in the storage.
    fn unused(n: usize, c: usize, random: &mut Random) -> Self {
        let mut any = || (0..256).map(|_| unused_value(random)).collect::<Vec<_>>();
        let (l, u, work) = (any(), any(), [any(), any(), any()]);
        Self { n, c, l, u, work }
    }

    /// Factors at dimension n that need not be those of any matrix.
    fn new(n: usize, c: usize, profile: Profile, random: &mut Random) -> Self {
        let mut instance = Self::unused(n, c, random);
        let sparse = random.chance(1, 2);
        for i in 0..n {
            for j in 0..n {
                let unit = if i == j { 1.0 } else { 0.0 };
                instance.l[i * c + j] = if sparse { unit } else { profile.value(random) };
            }
            for j in i..n {
                instance.u[u_start(c, i) + j - i] = profile.value(random);
            }
        }
        if n > 0 && random.chance(1, 2) {
            let i = random.index(n);
            instance.u[u_start(c, i)] = odd_diagonal(random);
        }
        if n > 0 && random.chance(1, 6) {
            let i = random.index(n);
            put_non_finite(instance.row(i), random);
        }
        instance
    }

    /// Factors that are ready, but for up to two entries.
    fn nearly_ready(n: usize, c: usize, random: &mut Random) -> Self {
        let mut instance = Self::unused(n, c, random);
        for i in 0..n {
            let mut values = vec![f64::NAN; 2 * n - i];
            make_finite(&mut values, random);
            if values[n] == 0.0 {
                values[n] = 1.0;
            }
            instance.l[i * c..][..n].copy_from_slice(&values[..n]);
            instance.u[u_start(c, i)..][..n - i].copy_from_slice(&values[n..]);
        }
        for _ in 0..random.below(3) {
            instance.put_odd(random);
        }
        instance
    }

    /// An active entry, in the first and the last rows and columns more often, becomes infinite,
    /// NaN or zero.
    fn put_odd(&mut self, random: &mut Random) {
        const VALUES: [f64; 5] = [f64::NAN, f64::INFINITY, f64::NEG_INFINITY, 0.0, -0.0];
        let (i, j) = (random.index(self.n), random.index(self.n));
        let (row, column) = (i.min(j), i.max(j));
        let entry = if random.chance(1, 2) {
            &mut self.l[i * self.c + j]
        } else {
            &mut self.u[u_start(self.c, row) + column - row]
        };
        *entry = random.pick(&VALUES);
    }

    /// The active entries of row i of L and U.
    fn row(&mut self, i: usize) -> Vec<&mut f64> {
        let &mut Self { n, c, .. } = self;
        let l = self.l[i * c..][..n].iter_mut();
        l.chain(&mut self.u[u_start(c, i)..][..n - i]).collect()
    }

    /// The active entries, row by row.
    fn active(&self) -> impl Iterator<Item = f64> + '_ {
        (0..self.n).flat_map(|i| [self.l_row(i), self.u_row(i)].concat())
    }

    fn active_bits(&self) -> Vec<u64> {
        self.active().map(f64::to_bits).collect()
    }

    fn is_finite(&self) -> bool {
        self.active().all(f64::is_finite)
    }
}

/// Zero, infinite, NaN, or at T or beside it.
fn odd_diagonal(random: &mut Random) -> f64 {
    let t = near(MANAGED.t, random);
    random.pick(&[
        0.0,
        -0.0,
        f64::INFINITY,
        f64::NEG_INFINITY,
        f64::NAN,
        t,
        t,
        t,
    ])
}

/// Where row i of U starts.
fn u_start(c: usize, i: usize) -> usize {
    (0..i).map(|row| c - row).sum()
}

/// Mostly small, sometimes up to 12.
fn largest_dimension(list: usize, random: &mut Random) -> usize {
    match list % 24 {
        0 => random.below(2),
        1..=3 => random.between(7, 12) as usize,
        _ => random.between(2, 6) as usize,
    }
}

fn add_list(list: usize, sample: &mut Sample, random: &mut Random) {
    let largest = largest_dimension(list, random);
    let c = (largest + random.pick(&[0, 0, 0, 1, 2])).min(LARGEST_CAPACITY);
    let any = random.below(largest + 1);
    let n = random.pick(&[0, 0, 0, any, largest, largest]);
    let mut profile = Profile::choose(random);
    let mut instance = Instance::new(n, c, profile, random);
    for _ in 0..start_list(&instance, sample, random) {
        profile = profile.or_other(random);
        let function = choose_function(instance.n, largest, random);
        let call = next_call(&instance, function, profile, random);
        add_call(&call, &mut instance, sample);
    }
}

/// A list whose first call is ready, and then every second one.
fn add_ready_list(sample: &mut Sample, random: &mut Random) {
    let n = random.between(1, 5) as usize;
    let c = n + random.pick(&[0, 0, 1, 2]);
    let mut profile = Profile::choose(random);
    let mut instance = Instance::nearly_ready(n, c, random);
    for number in 0..start_list(&instance, sample, random) {
        profile = profile.or_other(random);
        let any = choose_function(instance.n, c, random);
        let function = if number % 2 == 0 { Ready } else { any };
        let call = next_call(&instance, function, profile, random);
        add_call(&call, &mut instance, sample);
    }
}

/// Writes what a list starts with and answers its number of calls.
fn start_list(instance: &Instance, sample: &mut Sample, random: &mut Random) -> usize {
    let calls = random.between(6, 12) as usize;
    for size in [calls, instance.c, instance.n] {
        sample.size(size);
    }
    sample.factors(instance);
    calls
}

/// A call with or without reasons to be refused; one with infinities or NaNs has others more often.
fn next_call(
    instance: &Instance,
    function: Function,
    profile: Profile,
    random: &mut Random,
) -> Call {
    let mut call = sound_call(instance, function, profile, random);
    let non_finite = random.chance(1, 8);
    if non_finite {
        put_non_finite(call.numbers(), random);
    }
    if random.chance(if non_finite { 2 } else { 1 }, 4) {
        for _ in 0..random.between(1, 2) {
            add_cause(&mut call, instance, random);
        }
    }
    call
}

/// Any function at any time, growth and solves more often than the others.
fn choose_function(n: usize, largest: usize, random: &mut Random) -> Function {
    if n == 0 && random.chance(3, 4) || n < largest && random.chance(1, 3) {
        return Push;
    }
    random.pick(&[
        Push,
        ReplaceRow,
        ReplaceRow,
        ReplaceColumn,
        ReplaceColumn,
        Remove,
        Remove,
        Solve,
        Solve,
        SolveTranspose,
        SolveTranspose,
        Ready,
        FromStorage,
    ])
}

/// A call that is refused only for what it is made on: at the capacity, at dimension 0, or for the
/// diagonal.
fn sound_call(
    instance: &Instance,
    function: Function,
    profile: Profile,
    random: &mut Random,
) -> Call {
    let &Instance { n, c, .. } = instance;
    let surplus = random.pick(&[0, 0, 1, 3]);
    let work = if function.is_update() {
        n + 1 + surplus
    } else {
        0
    };
    let mut vector = |wanted| {
        let length = if wanted { n } else { 0 };
        (0..length)
            .map(|_| value(function, profile, random))
            .collect::<Vec<_>>()
    };
    let mut first = vector(!matches!(function, Remove | Ready | FromStorage));
    let second = vector(function == Push);
    put_tolerance(&mut first, random);
    Call {
        function,
        l: c * (c + 1) + surplus,
        u: c * (c + 1) / 2 + surplus,
        y: work,
        z: work,
        w: work,
        dimension: n,
        capacity: c,
        row: random.index(n),
        column: random.index(n),
        diagonal: value(function, profile, random),
        first,
        second,
    }
}

/// A double of the profile. The data of an update are finite: where the profile's is not, it is of
/// another profile or of the largest magnitude.
fn value(function: Function, profile: Profile, random: &mut Random) -> f64 {
    let mut value = profile.value(random);
    while function.lends_data() && !value.is_finite() {
        let other = Profile::choose(random).value(random);
        value = random.pick(&[other, f64::MAX, -f64::MAX]);
    }
    value
}

/// Now and then an entry, the first and the last one more often, lies at E or T or beside it.
fn put_tolerance(vector: &mut [f64], random: &mut Random) {
    if !vector.is_empty() && random.chance(1, 4) {
        let last = vector.len() - 1;
        let i = random.index(vector.len());
        let magnitude = random.pick(&[MANAGED.e, MANAGED.e, MANAGED.t]);
        let value = near(magnitude, random);
        vector[random.pick(&[i, last])] = random.pick(&[value, magnitude, -magnitude]);
    }
}

/// Makes up to three of the numbers infinite or NaN.
fn put_non_finite(mut numbers: Vec<&mut f64>, random: &mut Random) {
    for _ in 0..random.between(1, 3) {
        let place = random.index(numbers.len());
        *numbers[place] = random.pick(&[f64::NAN, f64::INFINITY, f64::NEG_INFINITY]);
    }
}

/// Gives the call a reason to be refused, if its function has the one that is picked.
fn add_cause(call: &mut Call, instance: &Instance, random: &mut Random) {
    let &Instance { n, c, .. } = instance;
    let past = random.pick(&[n, n + 1, n + 3, usize::MAX]);
    match random.below(9) {
        0 => call.dimension = random.pick(&[c + 1, c + 2, usize::MAX]),
        1 if call.dimension <= c => {
            call.capacity = random.pick(&[1 << 32, 1 << 40, usize::MAX - 1, usize::MAX]);
        }
        2 if c > 0 => call.l = random.below(c * (c + 1)),
        3 if c > 0 => call.u = random.below(c * (c + 1) / 2),
        4 if call.function.is_update() => call.w = random.below(call.y),
        5 if call.function == Push => call.capacity = n,
        6 => (call.row, call.column) = random.pick(&[(past, 0), (0, past)]),
        7 => change_length(call, random),
        _ if call.function.is_update() => {
            let short = random.below(n + 1);
            (call.y, call.z, call.w) = (short, short, short);
        }
        _ => {}
    }
}

/// Makes a vector longer or shorter: push's row or column, or the first vector of any other call.
fn change_length(call: &mut Call, random: &mut Random) {
    let second = call.function == Push && random.chance(1, 2);
    let vector = if second {
        &mut call.second
    } else {
        &mut call.first
    };
    if vector.is_empty() || random.chance(1, 2) {
        vector.push(1.0);
    } else {
        vector.truncate(random.below(vector.len()));
    }
}

/// Makes the call in the Rust, on a copy, and writes it with its answer and with what it left.
fn add_call(call: &Call, instance: &mut Instance, sample: &mut Sample) {
    let mut changed = instance.clone();
    let mut first = call.first.clone();
    let answer = make_call(call, &mut changed, &mut first);
    let answer = refused_data(call, &answer).unwrap_or(answer);
    sample.call(call);
    sample.answer(&answer);
    match answer.number {
        0 => {
            changed.n = answer.dimension;
            *instance = changed;
            add_results(call, instance, &first, sample);
        }
        NON_FINITE_DATA => {}
        _ => assert!(
            instance.active_bits() == changed.active_bits(),
            "a refused call changed the factors"
        ),
    }
}

/// What an accepted call left: an update its factors, a solve its vector.
fn add_results(call: &Call, instance: &Instance, first: &[f64], sample: &mut Sample) {
    if call.function.is_update() {
        sample.factors(instance);
    } else if call.function.is_solve() {
        sample.vector(first);
    }
}

/// The rule that the Rust does not have: an update that passes all tests before 8 is refused with
/// 23 where its data hold an infinity or a NaN, and the index is the first such place.
fn refused_data(call: &Call, rust: &Answer) -> Option<Answer> {
    if !matches!(rust.number, 0 | INSUFFICIENT_WORKSPACE) {
        return None;
    }
    let index = first_non_finite(call)?;
    Some(Answer {
        number: NON_FINITE_DATA,
        dimension: call.dimension,
        index,
        moved_row: NOTHING,
        moved_column: NOTHING,
    })
}

/// Counted through push's row, column and diagonal, or through a replacement's values.
fn first_non_finite(call: &Call) -> Option<usize> {
    let data = match call.function {
        Push => [&call.first[..], &call.second, &[call.diagonal]].concat(),
        ReplaceRow | ReplaceColumn => call.first.clone(),
        _ => return None,
    };
    data.iter().position(|value| !value.is_finite())
}

/// The answer, with a refusal as document 01's number.
fn make_call(call: &Call, instance: &mut Instance, first: &mut [f64]) -> Answer {
    let mut answer = Answer {
        number: 0,
        dimension: call.dimension,
        index: NOTHING,
        moved_row: NOTHING,
        moved_column: NOTHING,
    };
    if let Err(number) = attempt(call, instance, first, &mut answer) {
        answer.number = number;
    }
    answer
}

fn attempt(
    call: &Call,
    instance: &mut Instance,
    first: &mut [f64],
    answer: &mut Answer,
) -> Result<(), usize> {
    let Instance {
        l,
        u,
        work: [y, z, w],
        ..
    } = instance;
    let (l, u) = (&mut l[..call.l], &mut u[..call.u]);
    let mut factors =
        LuMod::from_storage(call.dimension, call.capacity, l, u).map_err(storage_number)?;
    if call.function.is_update() {
        let (y, z, w) = (&mut y[..call.y], &mut z[..call.z], &mut w[..call.w]);
        let mut workspace = Workspace::new(y, z, w).map_err(storage_number)?;
        let updated = update(call, &mut factors, &mut workspace, answer);
        answer.dimension = factors.dimension();
        return updated.map_err(update_number);
    }
    let solved = match call.function {
        Solve => factors.solve_in_place(first),
        SolveTranspose => factors.solve_transpose_in_place(first),
        Ready => {
            let solved = factors.solve_in_place(&mut vec![0.0; call.dimension]);
            answer.index = usize::from(solved.is_ok() && instance.is_finite());
            Ok(())
        }
        _ => Ok(()),
    };
    solved.map_err(|error| solve_number(error, answer))
}

fn update(
    call: &Call,
    factors: &mut LuMod<f64>,
    workspace: &mut Workspace<f64>,
    answer: &mut Answer,
) -> Result<(), UpdateError> {
    let (row, column) = (RowIndex(call.row), ColumnIndex(call.column));
    match call.function {
        Push => factors.push(&call.first, &call.second, call.diagonal, workspace),
        ReplaceRow => factors.replace_row(row, &call.first, workspace),
        ReplaceColumn => factors.replace_column(column, &call.first, workspace),
        _ => {
            let removal = factors.remove(row, column, workspace)?;
            answer.moved_row = removal.moved_row.map_or(NOTHING, |row| row.0);
            answer.moved_column = removal.moved_column.map_or(NOTHING, |column| column.0);
            Ok(())
        }
    }
}

fn storage_number(error: StorageError) -> usize {
    match error {
        StorageError::InvalidDimension => 1,
        StorageError::SizeOverflow => 2,
        StorageError::InsufficientStorage => 3,
        _ => panic!("a storage error without a number"),
    }
}

fn update_number(error: UpdateError) -> usize {
    match error {
        UpdateError::CapacityExceeded => 4,
        UpdateError::RowOutOfBounds => 5,
        UpdateError::ColumnOutOfBounds => 6,
        UpdateError::LengthMismatch => 7,
        UpdateError::InsufficientWorkspace => INSUFFICIENT_WORKSPACE,
        _ => panic!("an update error without a number"),
    }
}

fn solve_number(error: SolveError, answer: &mut Answer) -> usize {
    let (number, index) = match error {
        SolveError::LengthMismatch => return 7,
        SolveError::Singular { index } => (9, index),
        SolveError::NonFiniteDiagonal { index } => (10, index),
        _ => panic!("a solve error without a number"),
    };
    answer.index = index;
    number
}
