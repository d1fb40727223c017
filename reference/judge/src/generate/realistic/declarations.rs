//! Declarations, types and imports.

use super::Printer;
use crate::image::{Tree, node};

const FEW: [usize; 6] = [0, 1, 1, 2, 3, 6];
const SOME: [usize; 4] = [1, 1, 2, 4];

impl Printer<'_> {
    pub(super) fn declaration(&mut self) -> Tree {
        let kind = self.random.between(10, 16) as u8;
        let children = match kind {
            10 => self.filter_map(),
            11 => self.constant(),
            12 => self.record_type(),
            13 => self.enumeration(),
            14 => self.function(),
            15 => self.test(),
            _ => return self.import_statement(),
        };
        // But for imports, a declaration has no `Meta` of its own.
        node(kind, 0..0, children)
    }

    fn filter_map(&mut self) -> Vec<Option<Tree>> {
        let word = *self.random.pick(&["filtermap", "filter"]);
        self.keyword(word);
        let name = self.name();
        let params = self.params();
        self.space();
        vec![Some(name), Some(params), Some(self.block())]
    }

    fn constant(&mut self) -> Vec<Option<Tree>> {
        self.keyword("const");
        let name = self.name();
        self.gap();
        self.token(":");
        self.space();
        let ty = self.type_expr();
        self.spaced("=");
        let value = self.expr();
        self.gap();
        self.token(";");
        vec![Some(name), Some(ty), Some(value)]
    }

    fn record_type(&mut self) -> Vec<Option<Tree>> {
        self.keyword("record");
        let name = self.name();
        let params = self.type_params();
        self.space();
        let fields = self.fields();
        vec![Some(name), params, Some(fields)]
    }

    fn enumeration(&mut self) -> Vec<Option<Tree>> {
        self.keyword("enum");
        let name = self.name();
        let params = self.type_params();
        self.space();
        let variants = self.list(["{", "}"], ",", &FEW, Self::variant);
        vec![Some(name), params, Some(variants)]
    }

    fn function(&mut self) -> Vec<Option<Tree>> {
        self.keyword("fn");
        let name = self.name();
        let params = self.params();
        self.space();
        let returned = self.random.once_in(2).then(|| {
            self.keyword("->");
            let ty = self.type_expr();
            self.space();
            ty
        });
        vec![Some(name), Some(params), returned, Some(self.block())]
    }

    fn test(&mut self) -> Vec<Option<Tree>> {
        self.keyword("test");
        let name = self.name();
        self.space();
        vec![Some(name), Some(self.block())]
    }

    /// An import with its keyword and semicolon; its span is that of the
    /// path between them.
    pub(super) fn import_statement(&mut self) -> Tree {
        self.keyword("import");
        let import = self.import(3);
        self.gap();
        self.token(";");
        import
    }

    fn import(&mut self, levels: usize) -> Tree {
        let start = self.here();
        let path = self.path(&[1, 2, 3]);
        let group = (levels > 0 && self.random.once_in(2)).then(|| {
            self.gap();
            self.token(".");
            self.gap();
            let counts = [0, 1, 2, 5];
            self.list(["{", "}"], ",", &counts, |this| {
                this.import(levels - 1)
            })
        });
        node(16, start..self.here(), [Some(path), group])
    }

    fn params(&mut self) -> Tree {
        self.gap();
        self.list(["(", ")"], ",", &FEW, Self::name_and_type)
    }

    fn fields(&mut self) -> Tree {
        self.list(["{", "}"], ",", &FEW, Self::name_and_type)
    }

    fn type_params(&mut self) -> Option<Tree> {
        let wanted = self.random.once_in(3);
        wanted.then(|| {
            self.gap();
            self.list(["[", "]"], ",", &FEW, Self::name)
        })
    }

    fn name_and_type(&mut self) -> Tree {
        let start = self.here();
        let name = self.name();
        self.gap();
        self.token(":");
        self.space();
        let ty = self.type_expr();
        node(20, start..self.here(), [Some(name), Some(ty)])
    }

    fn variant(&mut self) -> Tree {
        let start = self.here();
        let name = self.name();
        let fields = if self.random.once_in(2) {
            self.gap();
            self.list(["(", ")"], ",", &SOME, Self::type_expr)
        } else {
            node(3, 0..0, [])
        };
        node(21, start..self.here(), [Some(name), Some(fields)])
    }

    pub(super) fn type_expr(&mut self) -> Tree {
        self.deeper(Self::type_here)
    }

    fn type_here(&mut self) -> Tree {
        let start = self.here();
        let most = if self.spent() { 6 } else { 9 };
        let (kind, children) = match self.random.below(most) {
            0 => {
                self.token("!");
                (42, vec![])
            }
            1 => {
                self.token("()");
                (43, vec![])
            }
            2..=5 => (41, vec![Some(self.path(&[1, 1, 2])), None]),
            6 => {
                let path = self.path(&[1, 1, 2]);
                self.gap();
                let types =
                    self.list(["[", "]"], ",", &SOME, Self::type_expr);
                (41, vec![Some(path), Some(types)])
            }
            7 => {
                let inner = self.type_expr();
                self.gap();
                self.token("?");
                (40, vec![Some(inner)])
            }
            _ => (44, vec![Some(self.fields())]),
        };
        node(kind, start..self.here(), children)
    }
}
