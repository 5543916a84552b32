//! Table 1, lists of PDUs, and the refusals of a description: 11, 1 to 6, and 12 of a BCH.
use super::unless;
use juzambore::Kind;

#[derive(Clone, Copy, PartialEq)]
pub enum Rate {
    Half,
    ThreeQuarters,
    NineSixteenths,
}

/// Bits per carrier, code rate, sent bits per symbol, information bits per symbol.
pub struct Mode {
    pub carrier: usize,
    pub rate: Rate,
    pub sent: usize,
    pub info: usize,
}

pub static MODES: [Mode; 7] = [
    Mode { carrier: 1, rate: Rate::Half, sent: 48, info: 24 },
    Mode { carrier: 1, rate: Rate::ThreeQuarters, sent: 48, info: 36 },
    Mode { carrier: 2, rate: Rate::Half, sent: 96, info: 48 },
    Mode { carrier: 2, rate: Rate::ThreeQuarters, sent: 96, info: 72 },
    Mode { carrier: 4, rate: Rate::NineSixteenths, sent: 192, info: 108 },
    Mode { carrier: 4, rate: Rate::ThreeQuarters, sent: 192, info: 144 },
    Mode { carrier: 6, rate: Rate::ThreeQuarters, sent: 288, info: 216 },
];

/// One PDU of a train: its mode, information bits and symbols.
pub struct Pdu {
    pub mode: &'static Mode,
    pub n: usize,
    pub symbols: usize,
}

/// The PDUs of a train and its counts: information bits, symbols, sent bits, carriers.
pub struct Size {
    pub pdus: Vec<Pdu>,
    pub n: usize,
    pub symbols: usize,
    pub sent: usize,
    pub carriers: usize,
}

pub fn mode_of(number: u32) -> Result<&'static Mode, u32> {
    match number {
        1..=7 => Ok(&MODES[number as usize - 1]),
        _ => Err(1),
    }
}

impl Pdu {
    /// A PDU, or the refusal of its own length: 3, 4 or 5.
    fn of(mode: &'static Mode, length: u32) -> Result<Pdu, u32> {
        let n = length as usize;
        unless(3, (72..=3456).contains(&n))?;
        unless(4, n % 8 == 0)?;
        unless(5, n % mode.info == 0)?;
        Ok(Pdu { mode, n, symbols: n / mode.info })
    }
}

impl Size {
    /// The train's counts or the first refusal. A call without a counter or an a gives none, and where it has no kind it
    /// asks as for data.
    pub fn of(
        kind: Kind, count: u32, modes: &[u32; 16], lengths: &[u32; 16], counter: Option<u32>, a: Option<u32>,
    ) -> Result<Size, u32> {
        unless(11, (1..=16).contains(&count))?;
        let is_bch = (count, modes[0], lengths[0], a) == (1, 1, 120, Some(0));
        let listed = 0..count as usize;
        let modes = modes[listed.clone()].iter().map(|&number| mode_of(number)).collect::<Result<Vec<_>, u32>>()?;
        unless(2, !counter.is_some_and(|counter| counter > 15))?;
        let pdus = listed.map(|k| Pdu::of(modes[k], lengths[k])).collect::<Result<Vec<_>, u32>>()?;
        let size = Size::sum(pdus);
        unless(3, size.n <= 3456)?;
        unless(6, !a.is_some_and(|a| a as usize > size.n - 72))?;
        unless(12, kind == Kind::Data || is_bch)?;
        Ok(size)
    }

    fn sum(pdus: Vec<Pdu>) -> Size {
        let symbols = pdus.iter().map(|pdu| pdu.symbols).sum();
        let n = pdus.iter().map(|pdu| pdu.n).sum();
        let sent = pdus.iter().map(|pdu| pdu.symbols * pdu.mode.sent).sum();
        Size { pdus, n, symbols, sent, carriers: 48 * symbols }
    }

    /// The bits of each carrier of the train, by its PDU's constellation.
    pub fn bits_of_carriers(&self) -> impl Iterator<Item = usize> + '_ {
        self.pdus.iter().flat_map(|pdu| vec![pdu.mode.carrier; 48 * pdu.symbols])
    }
}
