//! A reader of XML as far as a picture goes. It panics where the text is not well-formed.

#[derive(Debug, Default)]
pub struct Node {
    pub name: String,
    pub attributes: Vec<(String, String)>,
    pub children: Vec<Node>,
    /// What stands between its tags, without that of its children.
    pub text: String,
}

impl Node {
    pub fn parse(text: &str) -> Node {
        let (node, rest) = element(text.trim());
        assert_eq!(rest, "", "something behind the root");
        node
    }

    pub fn get(&self, name: &str) -> Option<&str> {
        let found = self.attributes.iter().find(|(given, _)| given == name);
        found.map(|(_, value)| value.as_str())
    }

    pub fn number(&self, name: &str) -> f64 {
        let value = self
            .get(name)
            .unwrap_or_else(|| panic!("{name} of {self:?}"));
        let (_, decimals) = value.split_once('.').unwrap_or_default();
        assert!(decimals.len() <= 1, "{value}");
        value.parse().unwrap()
    }

    pub fn count(&self, name: &str) -> Option<usize> {
        self.get(name).map(|value| value.parse().unwrap())
    }

    /// This node's children of a class.
    pub fn of_class<'a>(&'a self, class: &'a str) -> impl Iterator<Item = &'a Node> {
        let of_class = move |node: &&Node| node.get("class") == Some(class);
        self.children.iter().filter(of_class)
    }

    /// It and all nodes in it.
    pub fn all(&self) -> Vec<&Node> {
        let mut nodes = vec![self];
        nodes.extend(self.children.iter().flat_map(Node::all));
        nodes
    }
}

fn element(text: &str) -> (Node, &str) {
    let text = text.strip_prefix('<').expect("a tag");
    let end = text.find(['>', ' ', '/']).expect("a name");
    let mut node = Node {
        name: text[..end].to_owned(),
        ..Node::default()
    };
    let mut rest = &text[end..];
    while let Some(given) = rest.strip_prefix(' ') {
        let (name, behind) = given.split_once("=\"").expect("a value");
        assert!(
            name.bytes()
                .all(|byte| byte.is_ascii_alphabetic() || byte == b'-'),
            "{name}"
        );
        assert!(node.get(name).is_none(), "{name} is given twice");
        let (value, behind) = behind.split_once('"').expect("a quote");
        node.attributes.push((name.to_owned(), unescaped(value)));
        rest = behind;
    }
    match rest.strip_prefix("/>") {
        Some(rest) => (node, rest),
        None => content(node, rest.strip_prefix('>').expect("the end of a tag")),
    }
}

fn content(mut node: Node, mut rest: &str) -> (Node, &str) {
    loop {
        let (text, behind) = rest.split_at(rest.find('<').expect("an end tag"));
        node.text += &unescaped(text);
        if let Some(behind) = behind.strip_prefix("</") {
            let behind = behind
                .strip_prefix(node.name.as_str())
                .expect("its end tag");
            return (node, behind.strip_prefix('>').expect("the end of a tag"));
        }
        let (child, behind) = element(behind);
        node.children.push(child);
        rest = behind;
    }
}

fn unescaped(text: &str) -> String {
    assert!(!text.contains(['<', '>']), "{text}");
    assert!(!text
        .chars()
        .any(|letter| letter.is_control() && letter != '\n'));
    let mut parts = text.split('&');
    let mut plain = parts.next().unwrap_or_default().to_owned();
    for part in parts {
        let (name, behind) = part.split_once(';').expect("an escaped letter");
        plain.push(match name {
            "amp" => '&',
            "lt" => '<',
            "gt" => '>',
            "quot" => '"',
            _ => panic!("&{name};"),
        });
        plain += behind;
    }
    plain
}
