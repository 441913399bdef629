(value-triple (car x))
