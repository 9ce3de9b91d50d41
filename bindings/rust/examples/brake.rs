//! Compiles the brake rule, which takes the limit for a wet or for a dry road and compares the measured stopping
//! distance with it; then the rule with the fault that printed wrong reports, which is refused where its two branches
//! meet.
//!
//! The bytes of both are examples/brake.rule and examples/brake-broken.rule of the repository.

use tokenfinch::{Code, CodeBuilder, CodeRange, Opcode, Refusal, StringId};

/// The slots of the rule's arguments.
const DISTANCE: u16 = 0;
const IS_WET: u16 = 1;

/// The limits in metres, as the compiler numbers its constants.
const WET_LIMIT: u64 = 58;
const DRY_LIMIT: u64 = 42;

/// `return distance >= (wet limit if is_wet else dry limit)`; with `broken`, the wet limit is left on the stack twice.
fn brake_rule(broken: bool) -> Result<Code, Refusal> {
    let mut builder = CodeBuilder::new();
    builder.register_local_names(&[StringId(100), StringId(101)]);
    let (wet, dry) = (builder.add_const(WET_LIMIT)?, builder.add_const(DRY_LIMIT)?);
    builder.new_code_region(0);
    builder.set_location(CodeRange { start: 0, end: 40 }, None);

    builder.emit_load_local(IS_WET)?;
    let on_a_dry_road = builder.emit_jump(Opcode::JumpIfFalse)?;
    builder.emit_u16(Opcode::LoadConst, wet)?;
    if broken {
        builder.emit(Opcode::Dup)?;
    }
    let to_the_comparison = builder.emit_jump(Opcode::Jump)?;
    builder.patch_jump(on_a_dry_road)?;
    builder.emit_u16(Opcode::LoadConst, dry)?;
    builder.patch_jump(to_the_comparison)?;

    builder.emit_load_local(DISTANCE)?;
    builder.emit(Opcode::CompareGe)?;
    builder.emit(Opcode::ReturnValue)?;
    builder.try_build(StringId::default())
}

fn main() -> Result<(), Refusal> {
    let code = brake_rule(false)?;
    assert_eq!(code.bytecode(), include_bytes!("../../../examples/brake.rule"));
    let checked = code.check()?;
    for read in code.instructions() {
        let instruction = read?;
        let depth = checked
            .depth_at(instruction.offset())
            .map_or("-".to_owned(), |depth| depth.to_string());
        println!("depth {depth}  {:>2} {:?}", instruction.offset(), instruction.opcode());
    }
    println!("it needs a stack of {}", checked.greatest());

    let refusal = brake_rule(true).expect_err("its branches meet at different depths");
    println!("the broken rule: {refusal}");
    assert_eq!(refusal, Refusal::DepthsDiffer);

    // Who gets the bytes and did not build them asks the checker.
    let broken = include_bytes!("../../../examples/brake-broken.rule");
    let refusal = tokenfinch::check(broken, &[0, 0]).expect_err("the same bytes, from elsewhere");
    println!("its bytes: {refusal}");
    assert_eq!(refusal, Refusal::NoDepths);
    Ok(())
}
