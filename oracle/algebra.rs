//! A stand-in for `zetesis_algebra`: its meters, by the charge rule of document 01.
//! A charge is refused exactly when old + amount exceeds the limit, and then changes nothing.

/// What the meters say when they refuse.
pub enum MeterWorkError {
    /// The sum would pass the limit.
    Limit { observed: u128, limit: u128 },
    /// The sum would pass 128 bits; no charge of the engine comes near.
    Overflow,
}

pub struct Meter;
impl Meter {
    pub fn check_wide_count(old: u128, amount: u128, limit: u128) -> Result<u128, MeterWorkError> {
        let observed = old.checked_add(amount).ok_or(MeterWorkError::Overflow)?;
        if observed > limit {
            place();
            return Err(MeterWorkError::Limit { observed, limit });
        }
        Ok(observed)
    }

    pub fn charge_receipt(accepted: &mut u64, amount: u128, limit: u64) -> Result<(), MeterWorkError> {
        let sum = Self::check_wide_count(u128::from(*accepted), amount, u128::from(limit))?;
        *accepted = u64::try_from(sum).expect("at most the limit, which has 64 bits");
        Ok(())
    }
}

pub struct MeterBytes;
impl MeterBytes {
    pub fn check(observed: u128, limit: u128) -> Result<u128, MeterWorkError> {
        Meter::check_wide_count(observed, 0, limit)
    }
}

/// In the build for `coverage --places` only: tells where in the source a charge was refused,
/// or nothing for a charge of the reader.
#[cfg(places)]
fn place() {
    let trace = std::backtrace::Backtrace::force_capture().to_string();
    let lines = trace.lines().filter_map(|line| line.trim().strip_prefix("at "));
    let inside: Vec<&str> = lines
        .filter_map(|line| line.split_once("/src/numeric/"))
        .map(|(_, place)| place.rsplit_once(':').map_or(place, |(line, _)| line))
        .take_while(|place| !place.starts_with("tests.rs"))
        .collect();
    eprintln!("place {}", inside.join(" < "));
}
#[cfg(not(places))]
fn place() {}
