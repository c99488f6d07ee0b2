//! What `./bench` prints: times as ratios, all taken in one run. No number here makes anything fail.

mod calls;
mod growth;
mod jobs;
mod layer;
mod plain;
mod stack;
mod timing;

fn main() {
    layer::print();
    other::tree::with_big_stack(|| {
        plain::agree();
        calls::print();
        jobs::print();
        growth::print();
    });
    stack::print();
}
