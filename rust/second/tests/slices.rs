//! Lent memory is compared bit by bit, in the type that it has.
use second::Slice;

#[test]
fn bits_and_types() {
    let nan = |payload: u64| vec![f64::from_bits(0x7ff8_0000_0000_0000 | payload)];
    let all: [Slice; 12] = [
        vec![0u8].into(),
        vec![0u8, 0].into(),
        vec![1u8].into(),
        vec![0i32].into(),
        vec![-1i32].into(),
        vec![0u32].into(),
        vec![u32::MAX].into(),
        vec![0u64].into(),
        vec![0.0].into(),
        vec![-0.0].into(),
        nan(1).into(),
        nan(2).into(),
    ];
    for (one, slice) in all.iter().enumerate() {
        for (other, another) in all.iter().enumerate() {
            assert_eq!(slice == another, one == other, "{slice:?} and {another:?}");
        }
    }
}

#[test]
#[should_panic(expected = "is of another type")]
fn elements_of_another_type() {
    Slice::from(vec![0u32]).i32();
}
