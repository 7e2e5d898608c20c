//! As much of ratatui as the widget takes. A symbol of one byte has one column, and any other one is put whole.

/// Styles.
pub mod style {
    /// A colour.
    #[derive(Clone, Copy, Debug, Default, Eq, PartialEq)]
    #[allow(missing_docs)]
    pub enum Color {
        #[default]
        Reset,
        Black,
        Red,
        Green,
        Yellow,
        Blue,
        Magenta,
        Cyan,
        Gray,
    }

    /// Attributes.
    #[derive(Clone, Copy, Debug, Default, Eq, PartialEq)]
    pub struct Modifier(u16);

    #[allow(missing_docs)]
    impl Modifier {
        pub const BOLD: Modifier = Modifier(1);
        pub const DIM: Modifier = Modifier(2);
        pub const UNDERLINED: Modifier = Modifier(8);
        pub const REVERSED: Modifier = Modifier(64);
    }

    /// A style.
    #[derive(Clone, Copy, Debug, Default, Eq, PartialEq)]
    #[allow(missing_docs)]
    pub struct Style {
        pub fg: Option<Color>,
        pub bg: Option<Color>,
        pub add_modifier: Modifier,
    }

    #[allow(missing_docs)]
    impl Style {
        pub const fn reset() -> Style {
            Style {
                fg: Some(Color::Reset),
                bg: Some(Color::Reset),
                add_modifier: Modifier(0),
            }
        }

        pub const fn fg(mut self, colour: Color) -> Style {
            self.fg = Some(colour);
            self
        }

        pub const fn bg(mut self, colour: Color) -> Style {
            self.bg = Some(colour);
            self
        }

        pub const fn add_modifier(mut self, modifier: Modifier) -> Style {
            self.add_modifier = Modifier(self.add_modifier.0 | modifier.0);
            self
        }
    }
}

/// Places.
pub mod layout {
    /// A rectangle.
    #[derive(Clone, Copy, Debug, Default, Eq, PartialEq)]
    #[allow(missing_docs)]
    pub struct Rect {
        pub x: u16,
        pub y: u16,
        pub width: u16,
        pub height: u16,
    }

    #[allow(missing_docs)]
    impl Rect {
        pub const fn new(x: u16, y: u16, width: u16, height: u16) -> Rect {
            Rect {
                x,
                y,
                width,
                height,
            }
        }

        pub const fn right(self) -> u16 {
            self.x.saturating_add(self.width)
        }

        pub const fn bottom(self) -> u16 {
            self.y.saturating_add(self.height)
        }

        #[must_use]
        pub fn intersection(self, other: Rect) -> Rect {
            let (x, y) = (self.x.max(other.x), self.y.max(other.y));
            let (right, bottom) = (
                self.right().min(other.right()),
                self.bottom().min(other.bottom()),
            );
            Rect::new(x, y, right.saturating_sub(x), bottom.saturating_sub(y))
        }
    }
}

/// Screens.
pub mod buffer {
    use crate::layout::Rect;
    use crate::style::Style;

    /// A place of a screen.
    #[derive(Clone, Debug, Eq, PartialEq)]
    pub struct Cell {
        symbol: String,
        style: Style,
    }

    #[allow(missing_docs)]
    impl Cell {
        pub fn symbol(&self) -> &str {
            &self.symbol
        }

        pub fn style(&self) -> Style {
            self.style
        }
    }

    /// A screen.
    #[derive(Clone, Debug, Eq, PartialEq)]
    #[allow(missing_docs)]
    pub struct Buffer {
        pub area: Rect,
        pub content: Vec<Cell>,
    }

    #[allow(missing_docs)]
    impl Buffer {
        pub fn empty(area: Rect) -> Buffer {
            let cell = Cell {
                symbol: " ".to_owned(),
                style: Style::default(),
            };
            let count = usize::from(area.width) * usize::from(area.height);
            Buffer {
                area,
                content: vec![cell; count],
            }
        }

        /// Puts blanks one by one, and any other symbol whole, as ratatui puts a cluster.
        pub fn set_stringn<T, S>(
            &mut self,
            x: u16,
            y: u16,
            string: T,
            max_width: usize,
            style: S,
        ) -> (u16, u16)
        where
            T: AsRef<str>,
            S: Into<Style>,
        {
            let (text, style) = (string.as_ref(), style.into());
            let is_blank = text.bytes().all(|byte| byte == b' ');
            let symbols = if is_blank {
                vec![" "; text.len().min(max_width)]
            } else {
                vec![text]
            };
            let row = usize::from(y - self.area.y) * usize::from(self.area.width);
            let begin = row + usize::from(x - self.area.x);
            for (cell, symbol) in self.content[begin..].iter_mut().zip(symbols) {
                *cell = Cell {
                    symbol: symbol.to_owned(),
                    style,
                };
            }
            (x, y)
        }
    }
}

/// Widgets.
pub mod widgets {
    use crate::buffer::Buffer;
    use crate::layout::Rect;

    /// A widget with a state.
    #[allow(missing_docs)]
    pub trait StatefulWidget {
        type State;

        fn render(self, area: Rect, buf: &mut Buffer, state: &mut Self::State);
    }
}
