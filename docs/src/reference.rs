//! Plain reference for the Snowferrule bench: 6522, 6525, 6532 and 6545.
//!
//! Reads a session on standard input to its end and writes one answer a line.
//!
//!     rustc -O --edition 2021 reference.rs
//!     ./reference < session                normal, many clocks at once
//!     ./reference --by-clocks < session    one clock at a time, forecasts by looking
//!
//! Both ways must write the same bytes. The second is the yardstick for the
//! first: it contains no arithmetic about runs at all.

use std::env;
use std::io::{self, ErrorKind, Read, Write};
use std::process::ExitCode;

// ---------------------------------------------------------------- refusals

const NOT_A_FRAME: u8 = 2;
const NO_SUCH_REGISTER: u8 = 3;
const FORM_LEFT_OUT: u8 = 4;
const LEVEL_TOO_HIGH: u8 = 5;
const RUN_TOO_LONG: u8 = 6;

/// An accepted call's result, or the number of its refusal. (Refusal 1 cannot
/// arise here: a session's records all descend from power-up.)
type Checked<T> = Result<T, u8>;

// ------------------------------------------------------------------- reads

/// What a read of the 6522 or the 6532 gives.
struct Reading {
    data: u8,
    /// The flags that this read found set and left clear, each in the bit where
    /// a read of the flags shows it.
    cleared: u8,
}

impl Reading {
    fn new(data: u8, flags_before: u8, flags_after: u8) -> Self {
        Reading {
            data,
            cleared: flags_before & !flags_after,
        }
    }
}

// -------------------------------------------------------------------- 6522

/// Bits of IFR and IER.
mod flag {
    pub const CA2: u8 = 0x01;
    pub const CA1: u8 = 0x02;
    pub const SR: u8 = 0x04;
    pub const CB2: u8 = 0x08;
    pub const CB1: u8 = 0x10;
    pub const T2: u8 = 0x20;
    pub const T1: u8 = 0x40;
}

/// Bits of a 6522 pins call's control operand.
mod control {
    pub const CA1: u8 = 0x01;
    pub const CA2: u8 = 0x02;
    pub const CB1: u8 = 0x04;
    pub const CB2: u8 = 0x08;
    pub const HIGHEST: u8 = 0x0F;
}

/// Bits of ACR.
mod acr {
    pub const KEEP_A: u8 = 0x01;
    pub const KEEP_B: u8 = 0x02;
    pub const SHIFT_MODE: u8 = 0x1C;
    pub const T2_PULSES: u8 = 0x20;
    pub const FREE_RUN: u8 = 0x40;
    pub const TIMER_ON_PB7: u8 = 0x80;
}

/// The shift modes that are built, as ACR's bits 4..2 number them.
mod shift {
    pub const OFF: u8 = 0;
    pub const IN_BY_CLOCKS: u8 = 2;
    pub const IN_BY_CB1: u8 = 3;
    pub const OUT_BY_CLOCKS: u8 = 6;
    pub const OUT_BY_CB1: u8 = 7;
}

const PB6: u8 = 0x40;
const PB7: u8 = 0x80;

/// Shifts that an access of SR begins.
const BITS_OF_SR: u8 = 8;

#[derive(Clone)]
struct Chip6522 {
    port_a: u8,
    port_b: u8,
    ddr_a: u8,
    ddr_b: u8,
    outside_a: u8,
    outside_b: u8,
    outside_control: u8,
    kept_a: u8,
    kept_b: u8,
    t1_counter: u16,
    t1_latch: u16,
    t1_armed: bool,
    reload_mark: bool,
    /// What PB7 shows while ACR gives it to the timer; true is high.
    timer_level: bool,
    t2_counter: u16,
    t2_low_latch: u8,
    t2_armed: bool,
    sr: u8,
    /// Of the byte under way; 0 to 8.
    shifts_to_come: u8,
    /// Every second clock shifts; set means that the next one does.
    half_clock: bool,
    /// The bit that the last output shift put on CB2; true is high. No session
    /// line shows it.
    cb2_output: bool,
    acr: u8,
    pcr: u8,
    ifr: u8,
    ier: u8,
}

impl Chip6522 {
    /// How far a forecast by looking goes before it says never.
    ///
    /// Within 65,537 clocks (a T1 reload, 65,535 steps down, the passing) each
    /// timer that counts has passed zero. If it is ever to set its flag, that
    /// passing does: free-run flags every passing, an armed timer its first,
    /// and clocks arm nothing. A byte that clocks shift is through long before,
    /// and clocks begin no other. The factor adds one whole cycle, so that the
    /// look would also meet a flag that came a cycle late.
    const LOOK: u32 = 2 * 65_537;

    fn power_up() -> Self {
        let mut chip = Chip6522 {
            port_a: 0,
            port_b: 0,
            ddr_a: 0,
            ddr_b: 0,
            outside_a: 0xFF,
            outside_b: 0xFF,
            outside_control: control::HIGHEST,
            kept_a: 0,
            kept_b: 0,
            t1_counter: 0xFFFF,
            t1_latch: 0xFFFF,
            t1_armed: false,
            reload_mark: false,
            timer_level: true,
            t2_counter: 0xFFFF,
            t2_low_latch: 0xFF,
            t2_armed: false,
            sr: 0,
            shifts_to_come: 0,
            half_clock: false,
            cb2_output: false,
            acr: 0,
            pcr: 0,
            ifr: 0,
            ier: 0,
        };
        chip.reset();
        chip
    }

    fn reset(&mut self) {
        self.port_a = 0;
        self.port_b = 0;
        self.ddr_a = 0;
        self.ddr_b = 0;
        self.acr = 0;
        self.pcr = 0;
        self.ifr = 0;
        self.ier = 0;
        self.reload_mark = false;
        self.t1_armed = false;
        self.t2_armed = false;
        self.timer_level = true;
        self.shifts_to_come = 0;
        self.half_clock = false;
        self.cb2_output = false;
    }

    fn interrupt(&self) -> bool {
        self.ifr & self.ier != 0
    }

    fn acr_has(&self, bit: u8) -> bool {
        self.acr & bit != 0
    }

    fn lines_a(&self) -> u8 {
        mix(self.ddr_a, self.port_a, self.outside_a)
    }

    fn lines_b(&self) -> u8 {
        let lines = mix(self.ddr_b, self.port_b, self.outside_b);
        if self.acr_has(acr::TIMER_ON_PB7) {
            mix(PB7, if self.timer_level { PB7 } else { 0 }, lines)
        } else {
            lines
        }
    }

    fn port_a_as_read(&self) -> u8 {
        if self.acr_has(acr::KEEP_A) && self.ifr & flag::CA1 != 0 {
            self.kept_a
        } else {
            self.lines_a()
        }
    }

    fn port_b_as_read(&self) -> u8 {
        if !self.acr_has(acr::KEEP_B) || self.ifr & flag::CB1 == 0 {
            return self.lines_b();
        }
        // Only bits that are inputs at this moment can show what was kept.
        let mut inputs = !self.ddr_b;
        if self.acr_has(acr::TIMER_ON_PB7) {
            inputs &= !PB7;
        }
        mix(inputs, self.kept_b, self.lines_b())
    }

    fn ca2_code(&self) -> u8 {
        (self.pcr >> 1) & 7
    }

    fn cb2_code(&self) -> u8 {
        (self.pcr >> 5) & 7
    }

    fn touch_port_a(&mut self) {
        self.ifr &= !flag::CA1;
        if !is_independent(self.ca2_code()) {
            self.ifr &= !flag::CA2;
        }
    }

    fn touch_port_b(&mut self) {
        self.ifr &= !flag::CB1;
        if !is_independent(self.cb2_code()) {
            self.ifr &= !flag::CB2;
        }
    }

    /// A read or a write of SR. It begins a byte, but not in the mode that
    /// shifts nothing.
    fn touch_sr(&mut self) {
        self.ifr &= !flag::SR;
        if shift_mode(self.acr) != shift::OFF {
            self.shifts_to_come = BITS_OF_SR;
            self.half_clock = false;
        }
    }

    fn read(&mut self, register: u8) -> Checked<Reading> {
        let before = self.ifr;
        let data = self.read_data(register)?;
        Ok(Reading::new(data, before, self.ifr))
    }

    fn read_data(&mut self, register: u8) -> Checked<u8> {
        let data = match register {
            0 => {
                let data = self.port_b_as_read();
                self.touch_port_b();
                data
            }
            1 => {
                let data = self.port_a_as_read();
                self.touch_port_a();
                data
            }
            2 => self.ddr_b,
            3 => self.ddr_a,
            4 => {
                self.ifr &= !flag::T1;
                low_byte(self.t1_counter)
            }
            5 => high_byte(self.t1_counter),
            6 => low_byte(self.t1_latch),
            7 => high_byte(self.t1_latch),
            8 => {
                self.ifr &= !flag::T2;
                low_byte(self.t2_counter)
            }
            9 => high_byte(self.t2_counter),
            10 => {
                self.touch_sr();
                self.sr
            }
            11 => self.acr,
            12 => self.pcr,
            13 => self.ifr | if self.interrupt() { 0x80 } else { 0 },
            14 => self.ier | 0x80,
            15 => self.port_a_as_read(),
            16..=255 => return Err(NO_SUCH_REGISTER),
        };
        Ok(data)
    }

    fn write(&mut self, register: u8, value: u8) -> Checked<()> {
        match register {
            0 => {
                self.port_b = value;
                self.touch_port_b();
            }
            1 => {
                self.port_a = value;
                self.touch_port_a();
            }
            2 => self.ddr_b = value,
            3 => self.ddr_a = value,
            4 | 6 => self.t1_latch = word(high_byte(self.t1_latch), value),
            5 => {
                self.t1_latch = word(value, low_byte(self.t1_latch));
                self.t1_counter = self.t1_latch;
                self.ifr &= !flag::T1;
                self.reload_mark = false;
                self.t1_armed = true;
                self.timer_level = false;
            }
            7 => {
                self.t1_latch = word(value, low_byte(self.t1_latch));
                self.ifr &= !flag::T1;
            }
            8 => self.t2_low_latch = value,
            9 => {
                self.t2_counter = word(value, self.t2_low_latch);
                self.ifr &= !flag::T2;
                self.t2_armed = true;
            }
            10 => {
                self.sr = value;
                self.touch_sr();
            }
            11 => {
                if is_paced_by_t2(shift_mode(value)) {
                    return Err(FORM_LEFT_OUT);
                }
                self.acr = value;
                // A byte under way is given up, even where the mode is the same.
                self.shifts_to_come = 0;
                self.half_clock = false;
            }
            12 => {
                let (ca2, cb2) = ((value >> 1) & 7, (value >> 5) & 7);
                if is_handshake_or_pulse(ca2) || is_handshake_or_pulse(cb2) {
                    return Err(FORM_LEFT_OUT);
                }
                self.pcr = value;
            }
            13 => self.ifr &= !value,
            14 => {
                if value & 0x80 != 0 {
                    self.ier |= value & 0x7F;
                } else {
                    self.ier &= !value;
                }
            }
            15 => self.port_a = value,
            16..=255 => return Err(NO_SUCH_REGISTER),
        }
        Ok(())
    }

    fn pins(&mut self, a: u8, b: u8, control: u8) -> Checked<()> {
        if control > control::HIGHEST {
            return Err(LEVEL_TOO_HIGH);
        }
        let fell = self.outside_control & !control;
        let rose = control & !self.outside_control;
        let pulse = self.outside_b & !b & PB6 != 0;
        self.outside_a = a;
        self.outside_b = b;
        self.outside_control = control;

        // A flag that already stood must not overwrite what it kept.
        let met = self.edges_met(fell, rose);
        let raised = met & !self.ifr;
        self.ifr |= met;
        if raised & flag::CA1 != 0 {
            self.kept_a = self.lines_a();
        }
        if raised & flag::CB1 != 0 {
            self.kept_b = self.lines_b();
        }
        if pulse && self.acr_has(acr::T2_PULSES) {
            self.count_t2();
        }
        if rose & control::CB1 != 0 && is_paced_by_cb1(shift_mode(self.acr)) {
            self.shift_by_cb1();
        }
        Ok(())
    }

    /// The flags of the control lines whose edge PCR asks for was made. CA1 and
    /// CB1 have one mode bit; doubled, it means what the same code means for
    /// CA2, so one function judges all four.
    fn edges_met(&self, fell: u8, rose: u8) -> u8 {
        let mut met = 0;
        if edge_met(2 * (self.pcr & 1), control::CA1, fell, rose) {
            met |= flag::CA1;
        }
        if edge_met(self.ca2_code(), control::CA2, fell, rose) {
            met |= flag::CA2;
        }
        if edge_met(2 * ((self.pcr >> 4) & 1), control::CB1, fell, rose) {
            met |= flag::CB1;
        }
        if edge_met(self.cb2_code(), control::CB2, fell, rose) {
            met |= flag::CB2;
        }
        met
    }

    /// CB1's pulses need no access before them: with none to come the next
    /// pulse is the first of eight.
    fn shift_by_cb1(&mut self) {
        if self.shifts_to_come == 0 {
            self.shifts_to_come = BITS_OF_SR;
        }
        self.shift();
    }

    /// One shift, of a byte that has some to come.
    fn shift(&mut self) {
        let entering = if shifts_out(shift_mode(self.acr)) {
            // What leaves at bit 7 comes back at bit 0.
            self.cb2_output = self.sr & 0x80 != 0;
            self.cb2_output
        } else {
            self.cb2_is_high()
        };
        self.sr = (self.sr << 1) | u8::from(entering);
        self.shifts_to_come -= 1;
        if self.shifts_to_come == 0 {
            self.ifr |= flag::SR;
        }
    }

    /// CB2's outside level, whatever PCR makes of the pin.
    fn cb2_is_high(&self) -> bool {
        self.outside_control & control::CB2 != 0
    }

    // One clock.

    fn clock(&mut self) {
        self.clock_t1();
        if !self.acr_has(acr::T2_PULSES) {
            self.count_t2();
        }
        if self.clocks_shift() {
            self.clock_sr();
        }
    }

    fn clock_t1(&mut self) {
        if self.reload_mark {
            self.t1_counter = self.t1_latch;
            self.reload_mark = false;
        } else if self.t1_counter == 0 {
            self.pass_zero_t1();
        } else {
            self.t1_counter -= 1;
        }
    }

    fn pass_zero_t1(&mut self) {
        self.t1_counter = 0xFFFF;
        self.reload_mark = true;
        if self.acr_has(acr::FREE_RUN) {
            self.ifr |= flag::T1;
            self.timer_level = !self.timer_level;
        } else if self.t1_armed {
            self.ifr |= flag::T1;
            self.t1_armed = false;
            self.timer_level = true;
        }
    }

    fn count_t2(&mut self) {
        if self.t2_counter == 0 {
            self.wrap_t2();
        }
        self.t2_counter = self.t2_counter.wrapping_sub(1);
    }

    fn wrap_t2(&mut self) {
        if self.t2_armed {
            self.ifr |= flag::T2;
            self.t2_armed = false;
        }
    }

    /// Whether clocks have a byte to shift: they end one and begin none.
    fn clocks_shift(&self) -> bool {
        self.shifts_to_come > 0 && is_paced_by_clocks(shift_mode(self.acr))
    }

    fn clock_sr(&mut self) {
        if self.half_clock {
            self.shift();
        }
        self.half_clock = !self.half_clock;
    }

    fn run_by_clocks(&mut self, clocks: u32) {
        for _ in 0..clocks {
            self.clock();
        }
    }

    // Many clocks at once.

    fn run(&mut self, clocks: u32) {
        self.run_t1(clocks);
        if !self.acr_has(acr::T2_PULSES) {
            self.run_t2(clocks);
        }
        if let Some(due) = self.sr_due() {
            self.run_sr(due.saturating_sub(clocks));
        }
    }

    /// Clocks until T1 next passes zero: what is left to count and the passing
    /// itself, and a reload before them if the mark is set.
    fn t1_due(&self) -> u32 {
        if self.reload_mark {
            u32::from(self.t1_latch) + 2
        } else {
            u32::from(self.t1_counter) + 1
        }
    }

    fn run_t1(&mut self, mut clocks: u32) {
        if clocks >= self.t1_due() {
            clocks -= self.t1_due();
            self.pass_zero_t1();
            // The mark is set, so a whole period is due. A one-shot is disarmed
            // by now and free-run's flag is set: of the passings still to come
            // only free-run's level tells.
            let period = self.t1_due();
            if self.acr_has(acr::FREE_RUN) && clocks / period % 2 == 1 {
                self.timer_level = !self.timer_level;
            }
            clocks %= period;
        }
        // The rest comes to no passing.
        if self.reload_mark && clocks > 0 {
            self.clock_t1();
            clocks -= 1;
        }
        self.t1_counter -= clocks as u16;
    }

    fn run_t2(&mut self, clocks: u32) {
        if clocks > u32::from(self.t2_counter) {
            self.wrap_t2();
        }
        self.t2_counter = self.t2_counter.wrapping_sub(clocks as u16);
    }

    /// Clocks until the last shift of a byte that clocks shift: two for each to
    /// come, less the one that set the mark. None without such a byte.
    fn sr_due(&self) -> Option<u32> {
        if self.clocks_shift() {
            Some(2 * u32::from(self.shifts_to_come) - u32::from(self.half_clock))
        } else {
            None
        }
    }

    /// Goes on to where `left` clocks are left until the last shift; 0 once it is made.
    fn run_sr(&mut self, left: u32) {
        let to_come = left.div_ceil(2) as u8;
        let done = self.shifts_to_come - to_come;
        self.shifts_to_come = to_come;
        self.half_clock = left % 2 == 1;
        if left == 0 {
            self.ifr |= flag::SR;
        }
        // Behind the byte stand the eight bits that would follow it in: its own
        // where they come round, else CB2's level, which a run leaves still.
        let out = shifts_out(shift_mode(self.acr));
        let behind = if out {
            self.sr
        } else if self.cb2_is_high() {
            0xFF
        } else {
            0
        };
        self.sr = high_byte(word(self.sr, behind) << done);
        if out && done > 0 {
            // The last bit to leave is the last that came round.
            self.cb2_output = self.sr & 1 != 0;
        }
    }

    /// Clocks until the interrupt line is asserted if nothing else happens;
    /// 0 if it is asserted now, None for never.
    fn forecast(&self) -> Option<u32> {
        if self.interrupt() {
            return Some(0);
        }
        // An enabled flag is clear here, or the line would be asserted.
        let t1 = self.ier & flag::T1 != 0 && (self.acr_has(acr::FREE_RUN) || self.t1_armed);
        let t2 = self.ier & flag::T2 != 0 && self.t2_armed && !self.acr_has(acr::T2_PULSES);
        let sr = self.ier & flag::SR != 0;
        let sources = [
            t1.then(|| self.t1_due()),
            t2.then(|| u32::from(self.t2_counter) + 1),
            self.sr_due().filter(|_| sr),
        ];
        sources.into_iter().flatten().min()
    }

    fn forecast_by_looking(&self) -> Option<u32> {
        let mut copy = self.clone();
        for clocks in 0..=Self::LOOK {
            if copy.interrupt() {
                return Some(clocks);
            }
            copy.clock();
        }
        None
    }
}

/// CA2 and CB2 codes that a port access leaves alone.
fn is_independent(code: u8) -> bool {
    code == 1 || code == 3
}

/// CA2 and CB2 codes that this bench leaves out.
fn is_handshake_or_pulse(code: u8) -> bool {
    code == 4 || code == 5
}

/// ACR's bits 4..2 as a number.
fn shift_mode(acr: u8) -> u8 {
    (acr & acr::SHIFT_MODE) >> 2
}

/// Shift modes that this bench leaves out.
fn is_paced_by_t2(mode: u8) -> bool {
    matches!(mode, 1 | 4 | 5)
}

fn is_paced_by_clocks(mode: u8) -> bool {
    mode == shift::IN_BY_CLOCKS || mode == shift::OUT_BY_CLOCKS
}

fn is_paced_by_cb1(mode: u8) -> bool {
    mode == shift::IN_BY_CB1 || mode == shift::OUT_BY_CB1
}

fn shifts_out(mode: u8) -> bool {
    mode == shift::OUT_BY_CLOCKS || mode == shift::OUT_BY_CB1
}

/// Whether a control line moved the way its code asks for.
fn edge_met(code: u8, line: u8, fell: u8, rose: u8) -> bool {
    match code {
        0 | 1 => fell & line != 0,
        2 | 3 => rose & line != 0,
        _ => false,
    }
}

// -------------------------------------------------------------------- 6525

/// Bits of CR. The other four are of the CA and CB outputs, which this bench
/// leaves out: they are stored and do nothing.
mod cr {
    pub const INTERRUPT_MODE: u8 = 0x01;
    pub const PRIORITY: u8 = 0x02;
    pub const I3_RISING: u8 = 0x04;
    pub const I4_RISING: u8 = 0x08;
}

/// Interrupt inputs. Each has the bit of its line of port C, in the latch, in
/// the mask and in AIR.
mod input {
    pub const I0: u8 = 0x01;
    pub const I1: u8 = 0x02;
    pub const I2: u8 = 0x04;
    pub const I3: u8 = 0x08;
    pub const I4: u8 = 0x10;
    pub const ALL: u8 = I4 | I3 | I2 | I1 | I0;
}

const PC5: u8 = 0x20;

struct Chip6525 {
    port_a: u8,
    port_b: u8,
    port_c: u8,
    ddr_a: u8,
    ddr_b: u8,
    /// In the interrupt mode no direction but the mask: a 1 lets its input through.
    ddr_c: u8,
    outside_a: u8,
    outside_b: u8,
    outside_c: u8,
    cr: u8,
    /// Inputs whose edge came and that AIR has not handed over yet.
    latch: u8,
    /// Inputs that a read of AIR handed over and no write of AIR has ended.
    in_service: u8,
}

impl Chip6525 {
    fn power_up() -> Self {
        let mut chip = Chip6525 {
            port_a: 0,
            port_b: 0,
            port_c: 0,
            ddr_a: 0,
            ddr_b: 0,
            ddr_c: 0,
            outside_a: 0xFF,
            outside_b: 0xFF,
            outside_c: 0xFF,
            cr: 0,
            latch: 0,
            in_service: 0,
        };
        chip.reset();
        chip
    }

    fn reset(&mut self) {
        self.port_a = 0;
        self.port_b = 0;
        self.port_c = 0;
        self.ddr_a = 0;
        self.ddr_b = 0;
        self.ddr_c = 0;
        self.cr = 0;
        self.latch = 0;
        self.in_service = 0;
    }

    fn cr_has(&self, bit: u8) -> bool {
        self.cr & bit != 0
    }

    /// What AIR shows.
    fn active(&self) -> u8 {
        if self.cr_has(cr::INTERRUPT_MODE) {
            self.first_of(self.latch & self.ddr_c)
        } else {
            0
        }
    }

    /// Those of some inputs whose turn it is: with priority the highest alone,
    /// without it all at once.
    fn first_of(&self, inputs: u8) -> u8 {
        if self.cr_has(cr::PRIORITY) {
            highest(inputs)
        } else {
            inputs
        }
    }

    /// With priority only a higher input interrupts the service of another,
    /// without it none does. Outside the interrupt mode AIR shows none to begin
    /// with.
    fn interrupt(&self) -> bool {
        if self.cr_has(cr::PRIORITY) {
            self.active() > highest(self.in_service)
        } else {
            self.active() != 0 && self.in_service == 0
        }
    }

    fn lines_a(&self) -> u8 {
        mix(self.ddr_a, self.port_a, self.outside_a)
    }

    fn lines_b(&self) -> u8 {
        mix(self.ddr_b, self.port_b, self.outside_b)
    }

    /// In the interrupt mode the chip drives PC5 alone, low when asserted.
    fn lines_c(&self) -> u8 {
        if self.cr_has(cr::INTERRUPT_MODE) {
            mix(PC5, if self.interrupt() { 0 } else { PC5 }, self.outside_c)
        } else {
            mix(self.ddr_c, self.port_c, self.outside_c)
        }
    }

    fn read(&mut self, register: u8) -> Checked<u8> {
        let data = match register {
            0 => self.lines_a(),
            1 => self.lines_b(),
            2 => self.lines_c(),
            3 => self.ddr_a,
            4 => self.ddr_b,
            5 => self.ddr_c,
            6 => self.cr,
            7 => {
                let data = self.active();
                self.latch &= !data;
                self.in_service |= data;
                data
            }
            8..=255 => return Err(NO_SUCH_REGISTER),
        };
        Ok(data)
    }

    fn write(&mut self, register: u8, value: u8) -> Checked<()> {
        match register {
            0 => self.port_a = value,
            1 => self.port_b = value,
            // A 0 clears its input's latch; a 1 sets none.
            2 if self.cr_has(cr::INTERRUPT_MODE) => self.latch &= value,
            2 => self.port_c = value,
            3 => self.ddr_a = value,
            4 => self.ddr_b = value,
            5 => self.ddr_c = value,
            6 => self.cr = value,
            // The byte does not matter.
            7 if self.cr_has(cr::INTERRUPT_MODE) => {
                self.in_service &= !self.first_of(self.in_service);
            }
            7 => {}
            8..=255 => return Err(NO_SUCH_REGISTER),
        }
        Ok(())
    }

    /// Outside levels alone make the edges, and the mask keeps none from the latch.
    fn pins(&mut self, a: u8, b: u8, c: u8) {
        if self.cr_has(cr::INTERRUPT_MODE) {
            let fell = self.outside_c & !c;
            let rose = c & !self.outside_c;
            self.latch |= mix(self.rising(), rose, fell) & input::ALL;
        }
        self.outside_a = a;
        self.outside_b = b;
        self.outside_c = c;
    }

    /// The inputs that wait for a rise. I2, I1 and I0 always wait for a fall.
    fn rising(&self) -> u8 {
        let mut inputs = 0;
        if self.cr_has(cr::I4_RISING) {
            inputs |= input::I4;
        }
        if self.cr_has(cr::I3_RISING) {
            inputs |= input::I3;
        }
        inputs
    }
}

/// The highest of some inputs, alone; 0 if there is none.
fn highest(inputs: u8) -> u8 {
    [input::I4, input::I3, input::I2, input::I1, input::I0]
        .into_iter()
        .find(|input| inputs & input != 0)
        .unwrap_or(0)
}

// -------------------------------------------------------------------- 6532

const PA7: u8 = 0x80;

#[derive(Clone)]
struct Chip6532 {
    ram: [u8; 128],
    port_a: u8,
    port_b: u8,
    ddr_a: u8,
    ddr_b: u8,
    outside_a: u8,
    outside_b: u8,
    timer: u8,
    divider: u16,
    prescaler: u16,
    expired: bool,
    timer_flag: bool,
    timer_enable: bool,
    pa7_flag: bool,
    pa7_enable: bool,
    pa7_rising: bool,
}

impl Chip6532 {
    /// How far a forecast by looking goes before it says never: 256 values of
    /// 1,024 clocks are the longest way to the flag. Past it only a timer
    /// without flags goes round, every 256 clocks; one round more shows that.
    const LOOK: u32 = 256 * 1_024 + 256;

    fn power_up() -> Self {
        let mut chip = Chip6532 {
            ram: [0; 128],
            port_a: 0,
            port_b: 0,
            ddr_a: 0,
            ddr_b: 0,
            outside_a: 0xFF,
            outside_b: 0xFF,
            timer: 0xFF,
            divider: 1_024,
            prescaler: 1,
            expired: false,
            timer_flag: false,
            timer_enable: false,
            pa7_flag: false,
            pa7_enable: false,
            pa7_rising: false,
        };
        chip.reset();
        chip
    }

    fn reset(&mut self) {
        self.port_a = 0;
        self.port_b = 0;
        self.ddr_a = 0;
        self.ddr_b = 0;
        self.timer_flag = false;
        self.timer_enable = false;
        self.pa7_flag = false;
        self.pa7_enable = false;
        self.pa7_rising = false;
    }

    fn interrupt(&self) -> bool {
        (self.timer_flag && self.timer_enable) || (self.pa7_flag && self.pa7_enable)
    }

    fn lines_a(&self) -> u8 {
        mix(self.ddr_a, self.port_a, self.outside_a)
    }

    fn lines_b(&self) -> u8 {
        mix(self.ddr_b, self.port_b, self.outside_b)
    }

    /// Both flags as a read of them shows them.
    fn flags(&self) -> u8 {
        let timer = if self.timer_flag { 0x80 } else { 0 };
        let pa7 = if self.pa7_flag { 0x40 } else { 0 };
        timer | pa7
    }

    fn read(&mut self, address: u8) -> Reading {
        let before = self.flags();
        let data = self.read_data(address);
        Reading::new(data, before, self.flags())
    }

    fn read_data(&mut self, address: u8) -> u8 {
        if address & 0x80 == 0 {
            self.ram[usize::from(address)]
        } else if address & 0x04 == 0 {
            match address & 0x03 {
                0 => self.lines_a(),
                1 => self.ddr_a,
                2 => self.lines_b(),
                _ => self.ddr_b,
            }
        } else if address & 0x01 == 0 {
            self.timer_flag = false;
            self.timer_enable = address & 0x08 != 0;
            self.timer
        } else {
            let data = self.flags();
            self.pa7_flag = false;
            data
        }
    }

    fn write(&mut self, address: u8, value: u8) {
        if address & 0x80 == 0 {
            self.ram[usize::from(address)] = value;
        } else if address & 0x04 == 0 {
            match address & 0x03 {
                0 => self.port_a = value,
                1 => self.ddr_a = value,
                2 => self.port_b = value,
                _ => self.ddr_b = value,
            }
        } else if address & 0x10 != 0 {
            self.timer = value;
            self.divider = match address & 0x03 {
                0 => 1,
                1 => 8,
                2 => 64,
                _ => 1_024,
            };
            self.prescaler = 1;
            self.expired = false;
            self.timer_flag = false;
            self.timer_enable = address & 0x08 != 0;
        } else {
            self.pa7_rising = address & 0x01 != 0;
            self.pa7_enable = address & 0x02 != 0;
        }
    }

    fn pins(&mut self, a: u8, b: u8) {
        let moved = if self.pa7_rising {
            a & !self.outside_a
        } else {
            self.outside_a & !a
        };
        if moved & PA7 != 0 {
            self.pa7_flag = true;
        }
        self.outside_a = a;
        self.outside_b = b;
    }

    // One clock.

    fn clock(&mut self) {
        if self.expired {
            self.timer = self.timer.wrapping_sub(1);
            return;
        }
        self.prescaler -= 1;
        if self.prescaler > 0 {
            return;
        }
        if self.timer == 0 {
            self.expire();
        } else {
            self.timer -= 1;
            self.prescaler = self.divider;
        }
    }

    fn expire(&mut self) {
        self.timer = 0xFF;
        self.timer_flag = true;
        self.expired = true;
        self.prescaler = 1;
    }

    fn run_by_clocks(&mut self, clocks: u32) {
        for _ in 0..clocks {
            self.clock();
        }
    }

    // Many clocks at once.

    fn run(&mut self, clocks: u32) {
        if self.expired {
            self.timer = self.timer.wrapping_sub(clocks as u8);
            return;
        }
        let expiry = self.clocks_to_expiry();
        let prescaler = u32::from(self.prescaler);
        if clocks >= expiry {
            self.expire();
            self.timer = self.timer.wrapping_sub((clocks - expiry) as u8);
        } else if clocks < prescaler {
            self.prescaler -= clocks as u16;
        } else {
            // The first step ends the prescaler's present round; each further
            // one takes a whole divider.
            let over = clocks - prescaler;
            let divider = u32::from(self.divider);
            self.timer -= (1 + over / divider) as u8;
            self.prescaler = self.divider - (over % divider) as u16;
        }
    }

    fn clocks_to_expiry(&self) -> u32 {
        u32::from(self.prescaler) + u32::from(self.timer) * u32::from(self.divider)
    }

    /// As for the 6522. The PA7 flag needs an edge, so only the timer counts.
    fn forecast(&self) -> Option<u32> {
        if self.interrupt() {
            Some(0)
        } else if self.timer_enable && !self.expired {
            Some(self.clocks_to_expiry())
        } else {
            None
        }
    }

    fn forecast_by_looking(&self) -> Option<u32> {
        let mut copy = self.clone();
        for clocks in 0..=Self::LOOK {
            if copy.interrupt() {
                return Some(clocks);
            }
            copy.clock();
        }
        None
    }
}

// -------------------------------------------------------------------- 6545

/// Bits of R8.
mod r8 {
    pub const ROW_COLUMN: u8 = 0x04;
    pub const SKEW_DE: u8 = 0x10;
    pub const SKEW_CURSOR: u8 = 0x20;
    pub const LEFT_OUT: u8 = 0xCB;
}

const ADDRESSES: u16 = 16_384;

struct Chip6545 {
    /// R0 to R19; the pen's R16 and R17 are here as well.
    r: [u8; 20],
    address: u8,
    column: u8,
    row: u8,
    scan_line: u8,
    in_adjust: bool,
    adjust_line: u8,
    row_start: u16,
    frame_start: u16,
    hsync_left: u8,
    vsync_left: u8,
    field: u8,
    kept_de: bool,
    kept_cursor: bool,
    pen: bool,
    strobe_waits: bool,
    pen_full: bool,
}

impl Chip6545 {
    /// In clocks, where the turns are asked for; other runs have no limit.
    const LONGEST_WITH_TURNS: u32 = 4_294_967_290;

    fn power_up() -> Self {
        let mut chip = Chip6545 {
            r: [0; 20],
            address: 0,
            column: 0,
            row: 0,
            scan_line: 0,
            in_adjust: false,
            adjust_line: 0,
            row_start: 0,
            frame_start: 0,
            hsync_left: 0,
            vsync_left: 0,
            field: 0,
            kept_de: false,
            kept_cursor: false,
            pen: false,
            strobe_waits: false,
            pen_full: false,
        };
        chip.reset();
        chip
    }

    fn reset(&mut self) {
        self.column = 0;
        self.row = 0;
        self.scan_line = 0;
        self.in_adjust = false;
        self.adjust_line = 0;
        self.reload_starts();
        self.hsync_left = 0;
        self.vsync_left = 0;
        self.field = 0;
        self.kept_de = false;
        self.kept_cursor = false;
        self.strobe_waits = false;
    }

    fn reload_starts(&mut self) {
        self.frame_start = word(self.r[12], self.r[13]);
        self.row_start = self.frame_start;
    }

    // What the record shows.

    fn ma(&self) -> u16 {
        if self.r[8] & r8::ROW_COLUMN == 0 {
            (self.row_start + u16::from(self.column)) % ADDRESSES
        } else {
            let high = (high_byte(self.frame_start) + self.row) % 64;
            let low = low_byte(self.frame_start).wrapping_add(self.column);
            word(high, low)
        }
    }

    fn ra(&self) -> u8 {
        if self.in_adjust {
            self.adjust_line
        } else {
            self.scan_line
        }
    }

    fn blanking(&self) -> bool {
        self.row >= self.r[6] || self.in_adjust
    }

    fn unskewed_de(&self) -> bool {
        !self.blanking() && self.column < self.r[1]
    }

    fn unskewed_cursor(&self) -> bool {
        self.unskewed_de()
            && self.ma() == word(self.r[14], self.r[15])
            && self.ra() >= self.r[10] & 0x1F
            && self.ra() <= self.r[11]
            && self.cursor_shown_in_this_field()
    }

    fn cursor_shown_in_this_field(&self) -> bool {
        match (self.r[10] >> 5) & 3 {
            0 => true,
            1 => false,
            2 => self.field % 16 < 8,
            _ => self.field < 16,
        }
    }

    fn de(&self) -> bool {
        if self.r[8] & r8::SKEW_DE != 0 {
            self.kept_de
        } else {
            self.unskewed_de()
        }
    }

    fn cursor(&self) -> bool {
        if self.r[8] & r8::SKEW_CURSOR != 0 {
            self.kept_cursor
        } else {
            self.unskewed_cursor()
        }
    }

    fn hsync(&self) -> bool {
        self.hsync_left > 0
    }

    fn vsync(&self) -> bool {
        self.vsync_left > 0
    }

    // Accesses.

    /// None is R31, which nothing drives.
    fn read(&mut self, address: u8) -> Checked<Option<u8>> {
        match address {
            0 => Ok(Some(self.status())),
            1 => Ok(self.read_register()),
            _ => Err(NO_SUCH_REGISTER),
        }
    }

    fn status(&self) -> u8 {
        let full = if self.pen_full { 0x40 } else { 0 };
        let blanking = if self.blanking() { 0x20 } else { 0 };
        full | blanking
    }

    fn read_register(&mut self) -> Option<u8> {
        match self.address {
            14 | 15 => Some(self.r[usize::from(self.address)]),
            16 | 17 => {
                self.pen_full = false;
                Some(self.r[usize::from(self.address)])
            }
            31 => None,
            _ => Some(0),
        }
    }

    fn write(&mut self, address: u8, value: u8) -> Checked<()> {
        match address {
            0 => {
                self.address = value & 0x1F;
                Ok(())
            }
            1 => self.write_register(value),
            _ => Err(NO_SUCH_REGISTER),
        }
    }

    fn write_register(&mut self, value: u8) -> Checked<()> {
        let width = match self.address {
            4 | 6 | 7 | 10 => 0x7F,
            12 | 14 | 18 => 0x3F,
            5 | 9 | 11 => 0x1F,
            8 if value & r8::LEFT_OUT != 0 => return Err(FORM_LEFT_OUT),
            16 | 17 | 20..=255 => return Ok(()),
            _ => 0xFF,
        };
        self.r[usize::from(self.address)] = value & width;
        Ok(())
    }

    fn pins(&mut self, pen: u8) -> Checked<()> {
        if pen > 1 {
            return Err(LEVEL_TOO_HIGH);
        }
        let pen = pen == 1;
        if pen && !self.pen {
            self.strobe_waits = true;
        }
        self.pen = pen;
        Ok(())
    }

    // One clock. What is marked as inlined lets the loops over it keep the
    // counters in registers.

    /// Says whether it ended a line.
    #[inline(always)]
    fn clock(&mut self) -> bool {
        if self.strobe_waits {
            self.store_pen_address();
        }
        self.kept_de = self.unskewed_de();
        self.kept_cursor = self.unskewed_cursor();
        self.step()
    }

    /// The clock's work on the counters alone. Says whether it ended a line.
    #[inline(always)]
    fn step(&mut self) -> bool {
        self.hsync_left = self.hsync_left.saturating_sub(1);
        // Equality and nothing else: a column beyond a lowered R0 must go all
        // the way round.
        let ends = self.column == self.r[0];
        if ends {
            self.column = 0;
            self.end_line();
        } else {
            self.column = self.column.wrapping_add(1);
        }
        if self.column == self.r[2] {
            self.hsync_left = self.hsync_width();
        }
        ends
    }

    fn hsync_width(&self) -> u8 {
        self.r[3] & 0x0F
    }

    fn store_pen_address(&mut self) {
        let ma = self.ma();
        self.r[16] = high_byte(ma);
        self.r[17] = low_byte(ma);
        self.pen_full = true;
        self.strobe_waits = false;
    }

    #[inline(always)]
    fn end_line(&mut self) {
        self.vsync_left = self.vsync_left.saturating_sub(1);
        if self.in_adjust {
            self.end_adjust_line();
        } else if self.scan_line == self.r[9] {
            self.end_row();
        } else {
            self.scan_line = (self.scan_line + 1) % 32;
        }
        if !self.in_adjust && self.row == self.r[7] && self.scan_line == 0 {
            let lines = self.r[3] >> 4;
            self.vsync_left = if lines == 0 { 16 } else { lines };
        }
    }

    fn end_adjust_line(&mut self) {
        let next = (self.adjust_line + 1) % 32;
        if next == self.r[5] {
            self.new_frame();
        } else {
            self.adjust_line = next;
        }
    }

    fn end_row(&mut self) {
        self.scan_line = 0;
        self.row_start = (self.row_start + u16::from(self.r[1])) % ADDRESSES;
        if self.row != self.r[4] {
            self.row = (self.row + 1) % 128;
        } else if self.r[5] == 0 {
            self.new_frame();
        } else {
            self.in_adjust = true;
            self.adjust_line = 0;
        }
    }

    fn new_frame(&mut self) {
        self.row = 0;
        self.scan_line = 0;
        self.adjust_line = 0;
        self.in_adjust = false;
        self.reload_starts();
        self.field = (self.field + 1) % 32;
    }

    /// Counts the lines that end.
    fn run_by_clocks(&mut self, clocks: u32) -> u32 {
        let mut line_ends = 0;
        for _ in 0..clocks {
            line_ends += u32::from(self.clock());
        }
        line_ends
    }

    // Many clocks at once.

    /// Counts the lines that end. Only the first clock can find a strobe
    /// waiting, and nobody sees what is kept before the last one: all those
    /// between the two have only the counters to move.
    fn run(&mut self, clocks: u32) -> u32 {
        let mut line_ends = 0;
        let mut left = clocks;
        while left > 0 {
            line_ends += u32::from(self.clock());
            left -= 1;
            if left > 1 {
                line_ends += self.steps(left - 1);
                left = 1;
            }
        }
        line_ends
    }

    /// Goes from column 0 to column 0, and the first time from wherever the
    /// column is. Where a frame begins, the counters are held against those
    /// with which the last one began. If they are the same, the frame just gone
    /// would come again and again, and as many more of it as there are clocks
    /// for are left out. It soon is so, since beginnings differ in nothing but
    /// what is left of the two sync pulses.
    #[inline(never)]
    fn steps(&mut self, clocks: u32) -> u32 {
        let mut line_ends = 0;
        let mut left = clocks;
        let mut beginning = None;
        while left >= self.steps_to_column_0() {
            left -= self.steps_to_column_0();
            let field = self.field;
            line_ends += u32::from(self.go_to_column_0());
            if self.field == field {
                continue;
            }
            let counters = self.counters();
            if let Some((counters_then, left_then, line_ends_then)) = beginning {
                if counters == counters_then {
                    let frame = left_then - left;
                    let frames = left / frame;
                    left -= frames * frame;
                    line_ends += frames * (line_ends - line_ends_then);
                    self.field = ((u32::from(self.field) + frames % 32) % 32) as u8;
                }
            }
            beginning = Some((counters, left, line_ends));
        }
        self.go_right(left as u8);
        line_ends
    }

    /// Whatever decides where steps lead, apart from registers, which they leave
    /// alone. The field isn't here: steps count it and never ask for it.
    fn counters(&self) -> impl PartialEq {
        (
            (self.column, self.row, self.scan_line),
            (self.in_adjust, self.adjust_line),
            (self.row_start, self.frame_start),
            (self.hsync_left, self.vsync_left),
        )
    }

    /// Column 0 comes after R0, or after 255 if R0 has been passed.
    fn steps_to_column_0(&self) -> u32 {
        let last = if self.column <= self.r[0] {
            self.r[0]
        } else {
            255
        };
        u32::from(last - self.column) + 1
    }

    /// Says whether the last of these steps, the one to column 0, ended a line.
    fn go_to_column_0(&mut self) -> bool {
        self.go_right((self.steps_to_column_0() - 1) as u8);
        self.step()
    }

    /// Steps to higher columns, short of column 0.
    fn go_right(&mut self, steps: u8) {
        let from = self.column;
        self.column += steps;
        if from < self.r[2] && self.r[2] <= self.column {
            // HSYNC began on the way, whatever was left of one before.
            self.hsync_left = self.hsync_width().saturating_sub(self.column - self.r[2]);
        } else {
            self.hsync_left = self.hsync_left.saturating_sub(steps);
        }
    }
}

/// One for each line that a run ended, and one for the line that it stopped in;
/// but a run without a clock has none.
fn turns(clocks: u32, line_ends: u32) -> u32 {
    if clocks == 0 {
        0
    } else {
        line_ends + 1
    }
}

// ------------------------------------------------------------------- bytes

/// Bits of `ones` where the mask is 1, of `zeros` where it is 0.
fn mix(mask: u8, ones: u8, zeros: u8) -> u8 {
    (ones & mask) | (zeros & !mask)
}

fn word(high: u8, low: u8) -> u16 {
    u16::from_be_bytes([high, low])
}

fn high_byte(word: u16) -> u8 {
    word.to_be_bytes()[0]
}

fn low_byte(word: u16) -> u8 {
    word.to_be_bytes()[1]
}

// ------------------------------------------------------------------- bench

/// What an accepted call's answer carries after its line byte.
enum Reply {
    Nothing,
    Data(u8),
    Reading(Reading),
    Forecast(Option<u32>),
    Turns(u32),
}

struct Bench {
    chip_6522: Chip6522,
    chip_6525: Chip6525,
    chip_6532: Chip6532,
    chip_6545: Chip6545,
    by_clocks: bool,
}

impl Bench {
    fn power_up(by_clocks: bool) -> Self {
        Bench {
            chip_6522: Chip6522::power_up(),
            chip_6525: Chip6525::power_up(),
            chip_6532: Chip6532::power_up(),
            chip_6545: Chip6545::power_up(),
            by_clocks,
        }
    }

    /// Carries out one line (without its LF) and appends its answer.
    fn answer(&mut self, line: &[u8], answers: &mut Vec<u8>) {
        match self.carry_out(line) {
            Ok((line_byte, reply)) => {
                push_byte(answers, 0);
                push_byte(answers, line_byte);
                match reply {
                    Reply::Nothing => {}
                    Reply::Data(data) => push_byte(answers, data),
                    Reply::Reading(reading) => {
                        push_byte(answers, reading.data);
                        push_byte(answers, reading.cleared);
                    }
                    Reply::Forecast(clocks) => push_number(answers, clocks.unwrap_or(NEVER)),
                    Reply::Turns(turns) => push_number(answers, turns),
                }
            }
            Err(refusal) => push_byte(answers, refusal),
        }
        answers.push(b'\n');
    }

    fn carry_out(&mut self, line: &[u8]) -> Checked<(u8, Reply)> {
        let mut bytes = [0; LONGEST_FRAME / 2];
        match decode(line, &mut bytes)? {
            [0x22, call @ ..] => {
                let reply = self.call_6522(call)?;
                Ok((u8::from(self.chip_6522.interrupt()), reply))
            }
            [0x25, call @ ..] => {
                let reply = self.call_6525(call)?;
                Ok((u8::from(self.chip_6525.interrupt()), reply))
            }
            [0x32, call @ ..] => {
                let reply = self.call_6532(call)?;
                Ok((u8::from(self.chip_6532.interrupt()), reply))
            }
            [0x45, call @ ..] => {
                let reply = self.call_6545(call)?;
                let chip = &self.chip_6545;
                let signals = u8::from(chip.de())
                    | (u8::from(chip.hsync()) << 1)
                    | (u8::from(chip.vsync()) << 2)
                    | (u8::from(chip.cursor()) << 3);
                Ok((signals, reply))
            }
            _ => Err(NOT_A_FRAME),
        }
    }

    fn call_6522(&mut self, call: &[u8]) -> Checked<Reply> {
        let chip = &mut self.chip_6522;
        match *call {
            [0x01] => chip.reset(),
            [0x02, register, value] => chip.write(register, value)?,
            [0x03, register] => return Ok(Reply::Reading(chip.read(register)?)),
            [0x04, a, b, control] => chip.pins(a, b, control)?,
            [0x05, n3, n2, n1, n0] => {
                let clocks = u32::from_be_bytes([n3, n2, n1, n0]);
                if self.by_clocks {
                    chip.run_by_clocks(clocks);
                } else {
                    chip.run(clocks);
                }
            }
            [0x06] if self.by_clocks => return Ok(Reply::Forecast(chip.forecast_by_looking())),
            [0x06] => return Ok(Reply::Forecast(chip.forecast())),
            _ => return Err(NOT_A_FRAME),
        }
        Ok(Reply::Nothing)
    }

    fn call_6525(&mut self, call: &[u8]) -> Checked<Reply> {
        let chip = &mut self.chip_6525;
        match *call {
            [0x01] => chip.reset(),
            [0x02, register, value] => chip.write(register, value)?,
            [0x03, register] => return Ok(Reply::Data(chip.read(register)?)),
            [0x04, a, b, c] => chip.pins(a, b, c),
            // A clock changes nothing in this chip, so no number of them does.
            [0x05, _, _, _, _] => {}
            _ => return Err(NOT_A_FRAME),
        }
        Ok(Reply::Nothing)
    }

    fn call_6532(&mut self, call: &[u8]) -> Checked<Reply> {
        let chip = &mut self.chip_6532;
        match *call {
            [0x01] => chip.reset(),
            [0x02, address, value] => chip.write(address, value),
            [0x03, address] => return Ok(Reply::Reading(chip.read(address))),
            [0x04, a, b] => chip.pins(a, b),
            [0x05, n3, n2, n1, n0] => {
                let clocks = u32::from_be_bytes([n3, n2, n1, n0]);
                if self.by_clocks {
                    chip.run_by_clocks(clocks);
                } else {
                    chip.run(clocks);
                }
            }
            [0x06] if self.by_clocks => return Ok(Reply::Forecast(chip.forecast_by_looking())),
            [0x06] => return Ok(Reply::Forecast(chip.forecast())),
            _ => return Err(NOT_A_FRAME),
        }
        Ok(Reply::Nothing)
    }

    fn call_6545(&mut self, call: &[u8]) -> Checked<Reply> {
        let chip = &mut self.chip_6545;
        match *call {
            [0x01] => chip.reset(),
            [0x02, address, value] => chip.write(address, value)?,
            [0x03, address] => {
                if let Some(data) = chip.read(address)? {
                    return Ok(Reply::Data(data));
                }
            }
            [0x04, pen] => chip.pins(pen)?,
            [op @ (0x05 | 0x07), n3, n2, n1, n0] => {
                let clocks = u32::from_be_bytes([n3, n2, n1, n0]);
                let with_turns = op == 0x07;
                if with_turns && clocks > Chip6545::LONGEST_WITH_TURNS {
                    return Err(RUN_TOO_LONG);
                }
                let line_ends = if self.by_clocks {
                    chip.run_by_clocks(clocks)
                } else {
                    chip.run(clocks)
                };
                if with_turns {
                    return Ok(Reply::Turns(turns(clocks, line_ends)));
                }
            }
            _ => return Err(NOT_A_FRAME),
        }
        Ok(Reply::Nothing)
    }
}

// ----------------------------------------------------------- session lines

/// In characters: a run, with its chip, call and four count bytes. The
/// specification's limit of 32 therefore never decides anything by itself.
const LONGEST_FRAME: usize = 12;

/// Stands for never in a forecast's four bytes; no real forecast comes near.
const NEVER: u32 = 0xFFFF_FFFF;

/// Turns a line's digits into bytes; anything else in it is no frame.
fn decode<'a>(line: &[u8], bytes: &'a mut [u8; LONGEST_FRAME / 2]) -> Checked<&'a [u8]> {
    if line.len() > LONGEST_FRAME || line.len() % 2 != 0 {
        return Err(NOT_A_FRAME);
    }
    for (byte, pair) in bytes.iter_mut().zip(line.chunks_exact(2)) {
        *byte = (digit(pair[0])? << 4) | digit(pair[1])?;
    }
    Ok(&bytes[..line.len() / 2])
}

fn digit(character: u8) -> Checked<u8> {
    match character {
        b'0'..=b'9' => Ok(character - b'0'),
        b'A'..=b'F' => Ok(character - b'A' + 10),
        _ => Err(NOT_A_FRAME),
    }
}

fn push_byte(answers: &mut Vec<u8>, byte: u8) {
    const DIGITS: &[u8; 16] = b"0123456789ABCDEF";
    answers.push(DIGITS[usize::from(byte >> 4)]);
    answers.push(DIGITS[usize::from(byte & 0x0F)]);
}

fn push_number(answers: &mut Vec<u8>, number: u32) {
    for byte in number.to_be_bytes() {
        push_byte(answers, byte);
    }
}

/// The beginning of a line whose LF hasn't been read yet. It keeps one
/// character more than a frame can have and drops the rest: enough to see that
/// the line is too long, however long it gets.
struct Begun {
    characters: [u8; LONGEST_FRAME + 1],
    length: usize,
}

impl Begun {
    fn add(&mut self, part: &[u8]) {
        let kept = part.len().min(self.characters.len() - self.length);
        self.characters[self.length..self.length + kept].copy_from_slice(&part[..kept]);
        self.length += kept;
    }

    fn line(&self) -> &[u8] {
        &self.characters[..self.length]
    }
}

const CHUNK: usize = 64 * 1_024;

/// Answers are handed on after each chunk of input, so that somebody who types
/// a session, or feeds it through pipes both ways, needn't wait for its end.
fn answer_session(
    input: &mut impl Read,
    output: &mut impl Write,
    by_clocks: bool,
) -> Result<(), String> {
    let mut bench = Bench::power_up(by_clocks);
    let mut chunk = vec![0; CHUNK];
    // A lone LF makes three characters of one, and no line does worse.
    let mut answers = Vec::with_capacity(3 * CHUNK + 16);
    let mut begun = Begun {
        characters: [0; LONGEST_FRAME + 1],
        length: 0,
    };
    loop {
        let length = match input.read(&mut chunk) {
            Ok(0) => break,
            Ok(length) => length,
            Err(error) if error.kind() == ErrorKind::Interrupted => continue,
            Err(error) => return Err(format!("cannot read the session: {error}")),
        };
        let mut rest = &chunk[..length];
        while let Some(end) = rest.iter().position(|&character| character == b'\n') {
            if begun.length == 0 {
                bench.answer(&rest[..end], &mut answers);
            } else {
                begun.add(&rest[..end]);
                bench.answer(begun.line(), &mut answers);
                begun.length = 0;
            }
            rest = &rest[end + 1..];
        }
        begun.add(rest);
        hand_on(output, &mut answers)?;
    }
    if begun.length > 0 {
        bench.answer(begun.line(), &mut answers);
        hand_on(output, &mut answers)?;
    }
    Ok(())
}

fn hand_on(output: &mut impl Write, answers: &mut Vec<u8>) -> Result<(), String> {
    output
        .write_all(answers)
        .and_then(|()| output.flush())
        .map_err(|error| format!("cannot write the answers: {error}"))?;
    answers.clear();
    Ok(())
}

fn main() -> ExitCode {
    let mut by_clocks = false;
    for argument in env::args_os().skip(1) {
        if argument == "--by-clocks" {
            by_clocks = true;
        } else {
            complain("usage: reference [--by-clocks] < session");
            return ExitCode::from(2);
        }
    }
    match answer_session(&mut io::stdin().lock(), &mut io::stdout().lock(), by_clocks) {
        Ok(()) => ExitCode::SUCCESS,
        Err(trouble) => {
            complain(&format!("reference: {trouble}"));
            ExitCode::FAILURE
        }
    }
}

/// Unlike `eprintln!`, gives no panic if standard error is gone too.
fn complain(text: &str) {
    let _ = writeln!(io::stderr(), "{text}");
}
