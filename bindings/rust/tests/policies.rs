//! Policies: of a text, of names, and what is refused of either.

use firnuubal::{clean, Error, Policy, PolicyBuilder, PolicyFault};

fn kept(builder: &PolicyBuilder, page: &str) -> Result<String, Error> {
    builder.build().map(|policy| policy.clean(page))
}

#[test]
fn policies_of_texts() -> Result<(), Error> {
    let policy = Policy::parse("allow p class\nallow a href\nschemes ftp\nnoopener\n")?;
    assert_eq!(policy.clean("<p class=x><b>1<a href=ftp:x>"), r#"<p class="x">1<a href="ftp:x" rel="noopener">"#);
    assert_eq!(Policy::parse("")?.clean("<p>1"), "1");
    Ok(())
}

#[test]
fn policies_of_names() -> Result<(), Error> {
    assert_eq!(kept(&PolicyBuilder::new(), "<p>1")?, "1");
    let mut builder = PolicyBuilder::new();
    builder.tags(["p", "b"]).generic_attributes(["lang"]).clean_content_tags(["q"]).balance(true);
    assert_eq!(kept(&builder, "<p lang=x><b>1</p><q>2</q>")?, r#"<p lang="x"><b>1</b></p>"#);
    assert_eq!(builder.build()?, builder.build()?);
    assert_ne!(builder.build()?, PolicyBuilder::new().build()?);
    Ok(())
}

#[test]
fn lines_that_no_policy_takes() {
    let refused = |text, line, fault| assert_eq!(Policy::parse(text), Err(Error::BadPolicy { line, fault }), "{text}");
    refused("allow p\nallow script\n", 2, PolicyFault::HidesContent);
    refused("allow p\n\nallows b\n", 3, PolicyFault::UnknownRule);
    refused("hide\n", 1, PolicyFault::NoName);
    refused("tree\nallow x-y\n", 2, PolicyFault::NoPlaceInTree);
    refused("depth 0\n", 1, PolicyFault::Depth);
}

#[test]
fn names_that_no_policy_takes() {
    let refused = |builder: &mut PolicyBuilder, method, word: &str, fault| {
        assert_eq!(builder.build(), Err(Error::BadRule { method, word: String::from(word), fault }));
    };
    let new = PolicyBuilder::new;
    refused(new().tags(["p", "script"]), "tags", "script", PolicyFault::HidesContent);
    refused(new().tags(["B"]), "tags", "B", PolicyFault::ElementName);
    refused(new().tags([""]), "tags", "", PolicyFault::ElementName);
    refused(new().tags(["base"]), "tags", "base", PolicyFault::ActsOnPage);
    refused(new().tag_attributes("svg", ["id"]), "tag_attributes", "svg", PolicyFault::HidesContent);
    refused(new().tag_attributes("p", ["onclick"]), "tag_attributes", "onclick", PolicyFault::NeverKept);
    refused(new().generic_attributes(["Id"]), "generic_attributes", "Id", PolicyFault::AttributeName);
    refused(new().url_schemes(["javascript"]), "url_schemes", "javascript", PolicyFault::RunsAddress);
    refused(new().url_schemes(["https:"]), "url_schemes", "https:", PolicyFault::SchemeName);
    refused(new().tags(["q"]).clean_content_tags(["q"]), "clean_content_tags", "q", PolicyFault::AllowedAndHidden);
    refused(new().tags(["p", "x-y"]).tree(true), "tags", "x-y", PolicyFault::NoPlaceInTree);
    refused(new().depth(0), "depth", "0", PolicyFault::Depth);
    refused(new().depth(4097), "depth", "4097", PolicyFault::Depth);
    refused(new().depth(3).tree(false), "depth", "3", PolicyFault::DepthWithoutTree);
    refused(new().tags(["x-y"]).depth(3), "depth", "3", PolicyFault::DepthWithoutTree);
}

#[test]
fn words_of_rel_that_no_policy_takes() {
    let fault = PolicyFault::RelWord;
    for words in ["a\"b", "nofollow a_b", "é"] {
        let word = String::from(words.rsplit(' ').next().unwrap());
        let refused = PolicyBuilder::new().link_rel(Some(words)).build();
        assert_eq!(refused, Err(Error::BadRule { method: "link_rel", word, fault }));
    }
}

// Nothing in a name is read as a rule or a separator.
#[test]
fn names_are_taken_as_they_are() {
    for name in ["b\nallow img src", "b src", "b\0", "b\r\ni", "\tb", "b ", "b\u{a0}i "] {
        assert!(PolicyBuilder::new().tags([name]).build().is_err(), "{name:?}");
        assert!(PolicyBuilder::new().tag_attributes(name, ["id"]).build().is_err(), "{name:?}");
        assert!(PolicyBuilder::new().tag_attributes("b", [name]).build().is_err(), "{name:?}");
        assert!(PolicyBuilder::new().generic_attributes([name]).build().is_err(), "{name:?}");
        assert!(PolicyBuilder::new().url_schemes([name]).build().is_err(), "{name:?}");
        assert!(PolicyBuilder::new().clean_content_tags([name]).build().is_err(), "{name:?}");
    }
}

#[test]
fn refusals_in_words() {
    let refused = PolicyBuilder::new().tags(["b\nallow img"]).build().unwrap_err();
    assert_eq!(refused.to_string(), r#"tags "b\nallow img": invalid tag name"#);
    let refused = Policy::parse("allow p\nallow script\n").unwrap_err();
    assert_eq!(
        refused.to_string(),
        "line 2 of the policy: the element can't be allowed: its content is always dropped"
    );
    let refused = std::io::Error::from(refused);
    assert_eq!(refused.kind(), std::io::ErrorKind::InvalidInput);
}

// A page is made to fit: by `tree`, or else by `balance`; neither where both are refused.
#[test]
fn pages_are_made_to_fit() -> Result<(), Error> {
    let page = "<p>1<p>2<b><x-y></p>";
    let in_tree = "<p>1</p><p>2<b></b></p>";
    let balanced = "<p>1<p>2<b><x-y></x-y></b></p></p>";
    let with = |names: &[&'static str]| {
        let mut builder = PolicyBuilder::new();
        builder.tags(names.iter().copied());
        builder
    };
    let (known, other) = (with(&["p", "b"]), with(&["p", "b", "x-y"]));
    assert_eq!(kept(&known, page)?, in_tree);
    assert_eq!(kept(known.clone().tree(true), page)?, in_tree);
    assert_eq!(kept(known.clone().balance(false), page)?, in_tree);
    assert_eq!(kept(known.clone().balance(true), page)?, in_tree);
    assert_eq!(kept(known.clone().tree(false), page)?, "<p>1<p>2<b></b></p></p>");
    assert_eq!(kept(known.clone().tree(false).balance(false), page)?, "<p>1<p>2<b></p>");
    assert_eq!(kept(&other, page)?, balanced);
    assert_eq!(kept(other.clone().balance(true), page)?, balanced);
    assert_eq!(kept(other.clone().tree(false), page)?, balanced);
    assert_eq!(kept(other.clone().tree(false).balance(false), page)?, "<p>1<p>2<b><x-y></p>");
    let refused = other.clone().balance(false).build();
    let fault = PolicyFault::NoPlaceInTree;
    assert_eq!(refused, Err(Error::BadRule { method: "tree", word: String::new(), fault }));
    // A row is made in a table, so it can't be hidden in a tree.
    let mut hiding = with(&["p"]);
    hiding.clean_content_tags(["tr"]);
    assert_eq!(kept(&hiding, "<p>1<p>2")?, "<p>1<p>2</p></p>");
    Ok(())
}

#[test]
fn a_tree_of_a_depth() -> Result<(), Error> {
    assert_eq!(clean("<p>1<p>2"), "<p>1</p><p>2</p>");
    assert_eq!(kept(PolicyBuilder::new().tags(["p", "i", "b"]).depth(1), "<p>1<p>2<i><b>x</i>")?, "<p>1</p><p>2x</p>");
    Ok(())
}

#[test]
fn links_have_a_rel() -> Result<(), Error> {
    let mut builder = PolicyBuilder::new();
    builder.tag_attributes("a", ["href"]);
    let page = "<a href=/x rel=opener>1</a>";
    assert_eq!(kept(&builder, page)?, r#"<a href="/x" rel="noopener noreferrer">1</a>"#);
    assert_eq!(kept(builder.clone().link_rel(None), page)?, r#"<a href="/x">1</a>"#);
    assert_eq!(kept(builder.clone().link_rel(Some("")), page)?, r#"<a href="/x">1</a>"#);
    let rel = builder.clone().link_rel(Some("  nofollow ugc\n")).build()?;
    assert_eq!(rel.clean(page), r#"<a href="/x" rel="nofollow ugc">1</a>"#);
    assert_eq!(clean(page), r#"<a href="/x" rel="noopener noreferrer">1</a>"#);
    Ok(())
}

#[test]
#[allow(deprecated)]
fn noopener_as_before() -> Result<(), Error> {
    let mut builder = PolicyBuilder::new();
    builder.tag_attributes("a", ["href"]).noopener(true);
    assert_eq!(kept(&builder, "<a href=/x>1</a>")?, r#"<a href="/x" rel="noopener">1</a>"#);
    builder.noopener(false);
    assert_eq!(kept(&builder, "<a href=/x>1</a>")?, r#"<a href="/x">1</a>"#);
    Ok(())
}
