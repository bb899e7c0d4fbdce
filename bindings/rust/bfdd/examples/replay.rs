//! Replays a packet file of standard input, and writes the report that `bfdd replay` writes. The file is in the grammar.

use bfdd::{Answer, Command, Engine, Error, Output, Packet, Port};
use std::io::Read;
use std::net::IpAddr;

fn bytes(hex: &str) -> Vec<u8> {
    (0..hex.len() / 2).map(|at| u8::from_str_radix(&hex[2 * at..2 * at + 2], 16).expect("hexadecimal")).collect()
}

fn number<T: std::str::FromStr>(field: &str) -> T {
    field.parse().ok().expect("a number")
}

fn address(field: &str) -> IpAddr {
    let of_32_digits = || <[u8; 16]>::try_from(bytes(field)).expect("an address").into();
    field.parse().unwrap_or_else(|_| of_32_digits())
}

fn port(field: &str) -> Port {
    match field {
        "single" => Port::Single,
        "multi" => Port::Multi,
        "echo" => Port::Echo,
        "sbfd" => Port::Sbfd,
        _ => Port::Answer,
    }
}

fn command(verb: &str, value: u64) -> Command {
    match verb {
        "disable" => Command::Disable,
        "enable" => Command::Enable,
        "reset" => Command::Reset,
        "path" => Command::Path(value),
        "tx" => Command::Tx(value),
        "rx" => Command::Rx(value),
        "mult" => Command::Mult(value),
        "demand" => Command::Demand(value),
        "echo" => Command::Echo(value),
        _ => Command::Key(value),
    }
}

/// One event line.
fn happen(engine: &mut Engine, line: &str) -> Result<(), Error> {
    match line.split(' ').collect::<Vec<_>>()[..] {
        ["rx", moment, on, iface, src, dst, ttl, payload] => {
            let (src, dst, sport) = (address(src), address(dst), 49152);
            let packet = Packet { moment: number(moment), port: port(on), iface: number(iface), src, dst, sport, ttl: number(ttl) };
            engine.receive(&packet, &bytes(payload.trim_start_matches('-')))
        }
        ["tick", ms] => engine.tick(number(ms)),
        ["cmd", moment, discr, verb] => engine.command(number(moment), number(discr), command(verb, 0)),
        ["cmd", moment, discr, verb, value] => engine.command(number(moment), number(discr), command(verb, number(value))),
        ["show", moment, discr] => engine.show(number(moment), number(discr)),
        _ => panic!("no event line: {line}"),
    }
}

fn main() -> Result<(), Error> {
    let mut text = String::new();
    std::io::stdin().read_to_string(&mut text).expect("standard input");
    let (table, events) = text.split_once("\nrun\n").expect("a table");
    let mut engine = Engine::open(format!("{table}\nrun\nend\n").as_bytes())?;
    let (mut count, mut sent, mut dropped) = (0, 0, 0);
    for line in events.lines().take_while(|&line| line != "end") {
        count += 1;
        happen(&mut engine, line)?;
        for output in engine.outputs() {
            match output {
                Output::Changed { discr, was, state, diag } => println!("{count} state {discr} {was:?} {state:?} {diag}"),
                Output::Sent(packet) => {
                    sent += 1;
                    let payload: String = packet.payload().iter().map(|it| format!("{it:02x}")).collect();
                    println!("{count} tx {} {payload}", packet.discr);
                }
            }
        }
        match engine.answer() {
            Answer::Handled | Answer::Ticked => {}
            Answer::Dropped(cause) => {
                dropped += 1;
                println!("{count} drop {}", cause.name());
            }
            Answer::Refused(cause) => println!("{count} refuse {}", cause.name()),
            Answer::Shown(it) => println!(
                "{count} show {} {:?} {} {:?} {} {} {} {} {} {}",
                it.discr, it.state, it.diag, it.remote_state, it.remote_discr, it.adv_tx, it.used_tx, it.used_rx, it.detect, it.poll
            ),
        }
    }
    println!("done {count} {sent} {dropped}");
    Ok(())
}
