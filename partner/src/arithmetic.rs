//! Calculations at any width, each with what 003 says of the flags.

use crate::decode::{BitTest, DoubleShift, Scan, Shift};
use crate::machine::{FlagEffect, Width, AF, CF, OF, PF, SF, STATUS, ZF};

/// The flag if the condition holds, else nothing.
fn when(condition: bool, flag: u32) -> u32 {
    if condition {
        flag
    } else {
        0
    }
}

/// SF, ZF and PF of a result; PF looks at the low 8 bits only.
fn result_flags(result: u32, width: Width) -> u32 {
    when(result & width.sign() != 0, SF)
        | when(result & width.mask() == 0, ZF)
        | when((result as u8).count_ones().is_multiple_of(2), PF)
}

/// Sum of both values and a carry, with all six status flags (003: ADD, ADC).
pub fn add(left: u32, right: u32, carry: u32, width: Width) -> (u32, FlagEffect) {
    let (left, right) = (left & width.mask(), right & width.mask());
    let sum = u64::from(left) + u64::from(right) + u64::from(carry);
    let result = sum as u32 & width.mask();
    let signed = width.signed(left) + width.signed(right) + i64::from(carry);
    let values = result_flags(result, width)
        | when(sum > u64::from(width.mask()), CF)
        | when((left & 15) + (right & 15) + carry > 15, AF)
        | when(signed != width.signed(result), OF);
    (result, FlagEffect { written: STATUS, values, undefined: 0 })
}

/// Left less right and a borrow, with all six status flags (003: SUB, SBB, CMP).
pub fn subtract(left: u32, right: u32, borrow: u32, width: Width) -> (u32, FlagEffect) {
    let (left, right) = (left & width.mask(), right & width.mask());
    let difference = i64::from(left) - i64::from(right) - i64::from(borrow);
    let result = difference as u32 & width.mask();
    let signed = width.signed(left) - width.signed(right) - i64::from(borrow);
    let values = result_flags(result, width)
        | when(difference < 0, CF)
        | when((left & 15) < (right & 15) + borrow, AF)
        | when(signed != width.signed(result), OF);
    (result, FlagEffect { written: STATUS, values, undefined: 0 })
}

/// Flags of AND, OR, XOR and TEST: OF and CF cleared, AF undefined (003: AND, OR, XOR, TEST).
pub fn logic(result: u32, width: Width) -> (u32, FlagEffect) {
    let result = result & width.mask();
    let effect = FlagEffect { written: STATUS & !AF, values: result_flags(result, width), undefined: AF };
    (result, effect)
}

/// The same effect with CF left alone (003: INC, DEC).
pub fn keep_carry((result, effect): (u32, FlagEffect)) -> (u32, FlagEffect) {
    (result, FlagEffect { written: effect.written & !CF, ..effect })
}

/// Low half and high half of a product at this width.
fn halves(product: u64, width: Width) -> (u32, u32) {
    (product as u32 & width.mask(), (product >> width.bits()) as u32 & width.mask())
}

/// CF and OF both set or both clear; SF, ZF, AF and PF undefined (003: MUL, IMUL).
fn product_flags(overflow: bool) -> FlagEffect {
    FlagEffect { written: CF | OF, values: when(overflow, CF | OF), undefined: SF | ZF | AF | PF }
}

/// Unsigned product as low and high half (003: MUL).
pub fn multiply(left: u32, right: u32, width: Width) -> (u32, u32, FlagEffect) {
    let product = u64::from(left & width.mask()) * u64::from(right & width.mask());
    let (low, high) = halves(product, width);
    (low, high, product_flags(high != 0))
}

/// Signed product as low and high half (003: IMUL).
pub fn multiply_signed(left: u32, right: u32, width: Width) -> (u32, u32, FlagEffect) {
    let product = width.signed(left) * width.signed(right);
    let (low, high) = halves(product as u64, width);
    (low, high, product_flags(product != width.signed(low)))
}

/// All six status flags undefined (003: DIV, IDIV).
pub const DIVISION_FLAGS: FlagEffect = FlagEffect { written: 0, values: 0, undefined: STATUS };

/// Quotient and remainder, or nothing on a divide error (003: DIV).
pub fn divide(low: u32, high: u32, divisor: u32, width: Width) -> Option<(u32, u32)> {
    let dividend = (u64::from(high & width.mask()) << width.bits()) | u64::from(low & width.mask());
    let divisor = u64::from(divisor & width.mask());
    if divisor == 0 || dividend / divisor > u64::from(width.mask()) {
        return None;
    }
    Some(((dividend / divisor) as u32, (dividend % divisor) as u32))
}

/// Signed quotient, truncated toward zero, and remainder, or nothing on a divide error (003: IDIV).
pub fn divide_signed(low: u32, high: u32, divisor: u32, width: Width) -> Option<(u32, u32)> {
    let dividend = (i128::from(width.signed(high)) << width.bits()) + i128::from(low & width.mask());
    let divisor = i128::from(width.signed(divisor));
    if divisor == 0 {
        return None;
    }
    let (quotient, remainder) = (dividend / divisor, dividend % divisor);
    let limit = 1i128 << (width.bits() - 1);
    if quotient < -limit || quotient >= limit {
        return None;
    }
    Some((quotient as u32 & width.mask(), remainder as u32 & width.mask()))
}

/// Shift or rotate by the masked count, one bit at a time as 003 writes it (003: RCL/RCR/ROL/ROR, SAL/SAR/SHL/SHR).
pub fn shift(kind: Shift, value: u32, count: u32, carry: bool, width: Width) -> (u32, FlagEffect) {
    let count = count & 31;
    let (mask, sign, bits) = (width.mask(), width.sign(), width.bits());
    let start = value & mask;
    if count == 0 {
        return (start, FlagEffect::default());
    }
    let rounds = match kind {
        Shift::Rcl | Shift::Rcr if width != Width::Dword => count % (bits + 1),
        Shift::Rol | Shift::Ror => count % bits,
        _ => count,
    };
    let (mut result, mut carry) = (start, carry);
    for _ in 0..rounds {
        let (top, bottom) = (result & sign != 0, result & 1 != 0);
        let (left, right) = ((result << 1) & mask, result >> 1);
        (result, carry) = match kind {
            Shift::Rol => (left | when(top, 1), top),
            Shift::Ror => (right | when(bottom, sign), bottom),
            Shift::Rcl => (left | when(carry, 1), top),
            Shift::Rcr => (right | when(carry, sign), bottom),
            Shift::Shl => (left, top),
            Shift::Shr => (right, bottom),
            Shift::Sar => (right | when(top, sign), bottom),
        };
    }
    // ROL and ROR copy the result's end bit even if the value didn't move.
    match kind {
        Shift::Rol => carry = result & 1 != 0,
        Shift::Ror => carry = result & sign != 0,
        _ => {}
    }
    let top = result & sign != 0;
    let overflow = match kind {
        Shift::Rol | Shift::Rcl | Shift::Shl => top != carry,
        Shift::Ror | Shift::Rcr => top != (result & (sign >> 1) != 0),
        Shift::Shr => start & sign != 0,
        Shift::Sar => false,
    };
    let rotates = matches!(kind, Shift::Rol | Shift::Ror | Shift::Rcl | Shift::Rcr);
    let mut effect = FlagEffect { written: CF | OF, values: when(carry, CF) | when(overflow, OF), undefined: 0 };
    if !rotates {
        effect.written |= SF | ZF | PF;
        effect.values |= result_flags(result, width);
        effect.undefined |= AF;
    }
    if count != 1 {
        effect.undefined |= OF;
    }
    if matches!(kind, Shift::Shl | Shift::Shr) && count >= bits {
        effect.undefined |= CF;
    }
    effect.written &= !effect.undefined;
    (result, effect)
}

/// Shift of the double number that both values make, one bit at a time, or nothing if the count is over the width and
/// 003 leaves the result undefined (003: SHLD, SHRD; document 02, M-100 for a count of exactly the width).
pub fn double_shift(kind: DoubleShift, value: u32, filler: u32, count: u32, width: Width) -> (Option<u32>, FlagEffect) {
    let count = count & 31;
    let (mask, sign) = (width.mask(), width.sign());
    let start = value & mask;
    if count == 0 {
        return (Some(start), FlagEffect::default());
    }
    if count > width.bits() {
        return (None, FlagEffect { written: 0, values: 0, undefined: STATUS });
    }
    let (mut result, mut filler, mut carry) = (start, filler & mask, false);
    for _ in 0..count {
        (result, filler, carry) = match kind {
            DoubleShift::Shld => {
                ((result << 1) & mask | when(filler & sign != 0, 1), (filler << 1) & mask, result & sign != 0)
            }
            DoubleShift::Shrd => (result >> 1 | when(filler & 1 != 0, sign), filler >> 1, result & 1 != 0),
        };
    }
    let overflow = (start ^ result) & sign != 0;
    let undefined = if count == 1 { AF } else { AF | OF };
    let values = result_flags(result, width) | when(carry, CF) | when(overflow, OF);
    (Some(result), FlagEffect { written: STATUS & !undefined, values, undefined })
}

/// How many bytes from the bit base the operand-sized unit lies that holds the bit at a signed offset, and the bit's
/// place in that unit (003: BT).
pub fn bit_place(offset: u32, width: Width) -> (u32, u32) {
    let (offset, bits) = (width.signed(offset), i64::from(width.bits()));
    let unit = offset.div_euclid(bits);
    ((unit * i64::from(width.bytes())) as u32, offset.rem_euclid(bits) as u32)
}

/// CF is the bit as it was; OF, SF, ZF, AF and PF undefined (003: BT, BTC, BTR, BTS).
pub fn bit_test(kind: BitTest, value: u32, bit: u32) -> (u32, FlagEffect) {
    let mask = 1 << bit;
    let result = match kind {
        BitTest::Bt => value,
        BitTest::Bts => value | mask,
        BitTest::Btr => value & !mask,
        BitTest::Btc => value ^ mask,
    };
    (result, FlagEffect { written: CF, values: when(value & mask != 0, CF), undefined: STATUS & !CF })
}

/// Index of the lowest or highest bit set, or nothing if no bit is and 003 leaves the result undefined; CF, OF, SF, AF
/// and PF undefined (003: BSF, BSR).
pub fn scan(kind: Scan, value: u32, width: Width) -> (Option<u32>, FlagEffect) {
    let mut bits = 0..width.bits();
    let is_set = |bit: &u32| value & (1 << bit) != 0;
    let index = match kind {
        Scan::Bsf => bits.find(is_set),
        Scan::Bsr => bits.rfind(is_set),
    };
    (index, FlagEffect { written: ZF, values: when(index.is_none(), ZF), undefined: STATUS & !ZF })
}
