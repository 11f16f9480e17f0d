"""A live range is put around a text. A word is inserted into the text, and the range still covers it."""
import huckleport

with huckleport.Session() as session:
    document = session.document
    text = document.create_text_node("some text")
    bookmark = document.create_range()
    bookmark.select_node_contents(text)
    text.insert_data(4, " more")
    print(bookmark)
