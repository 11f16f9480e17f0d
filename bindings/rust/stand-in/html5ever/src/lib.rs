compile_error!("This package only stands for html5ever where the crate huckleport is built by itself. A program that depends on it gets the real one.");
