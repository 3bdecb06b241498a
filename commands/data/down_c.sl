function c() { a(); }
