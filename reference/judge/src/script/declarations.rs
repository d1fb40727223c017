//! Declarations, imports and types.

use super::{Read, Reader};
use crate::image::{Tree, node};

impl Reader<'_> {
    pub(super) fn declaration(&mut self) -> Read<Tree> {
        let kind = match self.peek() {
            "filtermap" | "filter" => 10,
            "const" => 11,
            "record" => 12,
            "enum" => 13,
            "fn" => 14,
            "test" => 15,
            "import" => return self.import_statement(),
            _ => return Err(self.ahead()),
        };
        self.next();
        let name = Some(self.name()?);
        let children = match kind {
            10 => vec![name, Some(self.params()?), Some(self.block()?)],
            11 => self.constant(name)?,
            12 => {
                let params = self.type_params()?;
                vec![name, params, Some(self.fields()?)]
            }
            13 => {
                let params = self.type_params()?;
                let variants = self.list(["{", "}"], Self::variant)?;
                vec![name, params, Some(variants)]
            }
            14 => self.function(name)?,
            _ => vec![name, Some(self.block()?)],
        };
        Ok(node(kind, 0..0, children))
    }

    fn constant(&mut self, name: Option<Tree>) -> Read<Vec<Option<Tree>>> {
        self.take(":")?;
        let ty = self.type_expr()?;
        self.take("=")?;
        let value = self.expr()?;
        self.take(";")?;
        Ok(vec![name, Some(ty), Some(value)])
    }

    fn function(&mut self, name: Option<Tree>) -> Read<Vec<Option<Tree>>> {
        let params = self.params()?;
        let returned = match self.next_is("->") {
            true => Some(self.type_expr()?),
            false => None,
        };
        Ok(vec![name, Some(params), returned, Some(self.block()?)])
    }

    /// An import with its keyword and semicolon, which its span leaves out.
    pub(super) fn import_statement(&mut self) -> Read<Tree> {
        self.take("import")?;
        let import = self.import()?;
        self.take(";")?;
        Ok(import)
    }

    fn import(&mut self) -> Read<Tree> {
        let start = self.ahead();
        let path = match self.peek() {
            "{" => None,
            _ => Some(self.path()?),
        };
        let group = match path.is_none() || self.next_is(".") {
            true => Some(self.list(["{", "}"], Self::import)?),
            false => None,
        };
        Ok(node(16, start..self.at, [path, group]))
    }

    fn params(&mut self) -> Read<Tree> {
        self.list(["(", ")"], Self::name_and_type)
    }

    fn fields(&mut self) -> Read<Tree> {
        self.list(["{", "}"], Self::name_and_type)
    }

    fn type_params(&mut self) -> Read<Option<Tree>> {
        match self.peek() {
            "[" => self.list(["[", "]"], Self::name).map(Some),
            _ => Ok(None),
        }
    }

    fn name_and_type(&mut self) -> Read<Tree> {
        let start = self.ahead();
        let name = self.name()?;
        self.take(":")?;
        let ty = self.type_expr()?;
        Ok(node(20, start..self.at, [Some(name), Some(ty)]))
    }

    fn variant(&mut self) -> Read<Tree> {
        let start = self.ahead();
        let name = self.name()?;
        let fields = match self.peek() {
            "(" => self.list(["(", ")"], Self::type_expr)?,
            _ => node(3, 0..0, []),
        };
        Ok(node(21, start..self.at, [Some(name), Some(fields)]))
    }

    pub(super) fn type_expr(&mut self) -> Read<Tree> {
        let start = self.ahead();
        let (kind, children) = match self.peek() {
            "!" => {
                self.next();
                (42, vec![])
            }
            "(" => {
                self.next();
                self.take(")")?;
                (43, vec![])
            }
            "{" => (44, vec![Some(self.fields()?)]),
            _ => {
                let path = self.path()?;
                let arguments = match self.peek() {
                    "[" => Some(self.list(["[", "]"], Self::type_expr)?),
                    _ => None,
                };
                (41, vec![Some(path), arguments])
            }
        };
        let mut ty = node(kind, start..self.at, children);
        while self.next_is("?") {
            ty = node(40, start..self.at, [Some(ty)]);
        }
        Ok(ty)
    }
}
