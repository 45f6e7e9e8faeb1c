//! The script that is drawn from a number.

struct Draws(u32);

impl Draws {
    fn draw(&mut self, below: u32) -> i64 {
        self.0 = self.0.wrapping_mul(1_664_525).wrapping_add(1_013_904_223);
        ((self.0 >> 16) % below) as i64
    }
}

const OPENING: &str = "trestle 1
screen 256 192 map8
glyph 41 183c66667e666600
glyph 42 7c66667c66667c00
node z z 3
node b border 9 2
leaf t 80 160 200 40 80 160 lines
leaf k 10 64 128 10 64 128 canvas
leaf m 8 64 256 8 48 255 meter 8
leaf s 1 40 80 1 40 80 solid 5
put s z 10 100
put m z 180 10
put k z 100 60
put t b
put b z 20 20
root z
begin
";

pub fn script_of(number: u32) -> String {
    let mut draws = Draws(number);
    let mut text = String::from(OPENING);
    for round in 1..=2000 {
        text += &line(&mut draws);
        text.push('\n');
        if round % 100 == 0 {
            text += "sync\n";
        }
    }
    text + "dump\nend\n"
}

fn line(draws: &mut Draws) -> String {
    match draws.draw(8) {
        0 => match draws.draw(21) {
            0 => "@t line".to_string(),
            n => {
                let letters = (0..n).map(|_| if draws.draw(2) == 0 { 'A' } else { 'B' });
                format!("@t line {}", letters.collect::<String>())
            }
        },
        1 => format!("@k rect {} {}", edges(draws), draws.draw(256)),
        2 => format!("@k swap {}", edges(draws)),
        3 => "@k undo".to_string(),
        4 => format!("@m bar {} {}", draws.draw(8), draws.draw(64)),
        5 => format!("@s tint {}", draws.draw(256)),
        6 => {
            let child = child(draws);
            format!("move {child} {} {}", draws.draw(256) - 32, draws.draw(192) - 32)
        }
        _ => format!("lift {}", child(draws)),
    }
}

fn child(draws: &mut Draws) -> char {
    ['b', 'k', 'm', 's'][draws.draw(4) as usize]
}

fn edges(draws: &mut Draws) -> String {
    let west = draws.draw(64);
    let east = west + draws.draw(32);
    let north = draws.draw(64);
    let south = north + draws.draw(32);
    format!("{west} {east} {north} {south}")
}
