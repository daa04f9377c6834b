//! A site at several moments side by side, as an SVG of the same bytes each time: the darker a cell, the deeper its water; chambers are dots,
//! red where the library's own search finds enough water over them.

use water::{Chamber, Pump, Site, Window};

pub struct Picture {
    /// how wide and how high a cell is drawn
    pub cell: (i64, i64),
    /// the height of the deepest shade
    pub deepest: i32,
    pub chambers: Vec<Chamber>,
    /// how much water over a chamber makes it red
    pub depth: i32,
    /// drawn as squares, inlets hollow
    pub pumps: Vec<Pump>,
    /// how many lines are written below each moment
    pub lines: usize,
    panels: Vec<String>,
}

impl Picture {
    pub fn new(cell: (i64, i64), deepest: i32, chambers: Vec<Chamber>, depth: i32) -> Picture {
        Picture { cell, deepest, chambers, depth, pumps: vec![], lines: 0, panels: vec![] }
    }

    /// The chambers that are red at this moment, by their places in the register.
    pub fn under(&self, site: &Site) -> Vec<u32> {
        let everywhere = Window { west: 0.0, south: 0.0, east: 1e9, north: 1e9 };
        site.search(&self.chambers, everywhere, self.depth).expect("a site in range")
    }

    /// From pale to deep blue.
    fn shade(&self, height: i32) -> String {
        let part = f64::from(height.min(self.deepest)) / f64::from(self.deepest);
        let mix = |pale: f64, deep: f64| (pale + (deep - pale) * part).round();
        format!("rgb({},{},{})", mix(240.0, 20.0), mix(244.0, 70.0), mix(246.0, 150.0))
    }

    fn width_of(&self, site: &Site) -> i64 {
        i64::from(site.card().columns) * self.cell.0 + 20
    }

    /// One moment more: a cell for each height, south at the bottom, chambers and pumps, and the lines below it.
    pub fn add(&mut self, site: &Site, title: &str, lines: &[String]) {
        assert_eq!(lines.len(), self.lines, "as many lines below each moment");
        let card = site.card();
        let (columns, rows, (wide, high)) = (i64::from(card.columns), i64::from(card.rows), self.cell);
        let left = 10 + self.panels.len() as i64 * self.width_of(site);
        let mut out = format!("<text x=\"{left}\" y=\"16\">{title}</text>\n");
        for row in 0..rows {
            for column in 0..columns {
                let (x, y) = (left + column * wide, 24 + (rows - 1 - row) * high);
                let fill = self.shade(site.height(column as u32, row as u32));
                out += &format!("<rect x=\"{x}\" y=\"{y}\" width=\"{wide}\" height=\"{high}\" fill=\"{fill}\"/>\n");
            }
        }
        let bottom = 24 + rows * high;
        for pump in &self.pumps {
            let (x, y) = (left + i64::from(pump.column) * wide + 2, bottom - (i64::from(pump.row) + 1) * high + 2);
            let fill = if pump.amount > 0 { "none" } else { "#333" };
            let (w, h) = (wide - 4, high - 4);
            out += &format!("<rect x=\"{x}\" y=\"{y}\" width=\"{w}\" height=\"{h}\" fill=\"{fill}\" stroke=\"#333\"/>\n");
        }
        let under = self.under(site);
        for (place, chamber) in self.chambers.iter().enumerate() {
            let (x, y) = (left + chamber.x * wide / i64::from(card.dx), bottom - chamber.y * high / i64::from(card.dy));
            let fill = if under.contains(&(place as u32)) { "#c62828" } else { "#ffffff" };
            out += &format!("<circle cx=\"{x}\" cy=\"{y}\" r=\"4\" fill=\"{fill}\" stroke=\"#333\"/>\n");
        }
        for (place, line) in lines.iter().enumerate() {
            out += &format!("<text x=\"{left}\" y=\"{}\">{line}</text>\n", bottom + 18 * (place as i64 + 1));
        }
        self.panels.push(out);
    }

    /// The whole picture, of moments of one site.
    pub fn print(&self, site: &Site) {
        let height = 24 + i64::from(site.card().rows) * self.cell.1 + 18 * self.lines as i64 + 10;
        let whole = self.panels.len() as i64 * self.width_of(site);
        println!("<svg xmlns=\"http://www.w3.org/2000/svg\" width=\"{whole}\" height=\"{height}\" font-family=\"sans-serif\" font-size=\"13\">");
        println!("<rect width=\"{whole}\" height=\"{height}\" fill=\"#ffffff\"/>");
        print!("{}", self.panels.concat());
        println!("</svg>");
    }
}
