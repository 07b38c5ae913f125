//! What a master can be told to do on the lines.

/// Moments that times are measured from.
#[derive(Debug, Clone, Copy, PartialEq, Eq)]
pub enum Mark {
    /// The last start, where the watchdog is loaded.
    Start,
    /// The stop that should have begun a write.
    Write,
    /// The last sample at which VCC became good, where the hold begins.
    Good,
}

#[derive(Debug, Clone, Copy, PartialEq, Eq)]
pub enum Sym {
    Start,
    /// A start whose falling edge comes exactly so long after the mark.
    StartAt(Mark, u32),
    Stop,
    /// A stop from which the write time is measured.
    WriteStop,
    /// A stop whose rising edge comes exactly so long after the mark.
    StopAt(Mark, u32),
    /// A stop with WP flipped in the sample of its edge, not before.
    WpStop,
    /// A stop with VCC low in the sample of its edge only.
    DipStop,
    /// One clock with this outside level; an acknowledge is a high one.
    Bit(bool),
    /// The same, but the outside level flips while SCL is high: a glitch
    /// while the part pulls, a start or stop while it doesn't. True: it also
    /// flips back before SCL falls.
    RippledBit(bool, bool),
    Wait(u32),
    Until(Mark, u32),
    WpFlip,
    /// VCC low for so many samples, then one good sample.
    Dip(u8),
    /// SDA there and back, SCL left alone.
    SdaBlip,
    /// SCL there and back, SDA left alone.
    SclBlip,
    /// Both lines flip in one sample and stay so.
    BothFlip,
    /// SCL and SDA put to these levels in one sample.
    Lines(bool, bool),
    /// So many samples of random lines and WP.
    Noise(u8),
}
