package shapes;
public class Square implements Shape {
  private final int side;
  public Square(int side) { this.side = side; }
  public int area() { return new Corner().twice() / 2 * side; }
  class Corner { int twice() { return side + side; } }
  public String toString() { return "square " + side; }
}
