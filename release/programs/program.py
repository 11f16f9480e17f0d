import huckleport

with huckleport.Session() as session:
    text = session.document.create_text_node("some text")
    bookmark = session.document.create_range()
    bookmark.select_node_contents(text)
    text.insert_data(4, " more")
    print(bookmark)
