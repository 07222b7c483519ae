// What other programs see of the proved code, compared with a second implementation. The tests go by
// subject, a file each; its `run` hands its tests to the report.
mod aes;
mod answers;
mod arguments;
mod carry;
mod cost;
mod counters;
mod direction;
mod exports;
mod fips197;
mod forms;
mod hex;
mod largest;
mod list_file;
mod lists;
mod modeline;
mod openssl;
mod place;
mod process;
mod rattle;
mod reference;
mod replay;
mod report;
mod rng;
mod scenario;
mod script;
mod sessions;
mod stack;
mod stealing;
mod tomcrypt;
mod unpad;

fn main() {
    let mut report = report::Report::new();
    aes::run(&mut report);
    sessions::run(&mut report);
    counters::run(&mut report);
    carry::run(&mut report);
    exports::run(&mut report);
    scenario::run(&mut report);
    stack::run(&mut report);
    replay::run(&mut report);
    forms::run(&mut report);
    largest::run(&mut report);
    stealing::run(&mut report);
    place::run(&mut report);
    modeline::run(&mut report);
    unpad::run(&mut report);
    lists::run(&mut report);
    if !report.end() {
        std::process::exit(1);
    }
}
