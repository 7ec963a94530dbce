class Shape {}
class Circle extends Shape {}
class Square extends Rectangle {}
