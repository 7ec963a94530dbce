package shapes;
public interface Shape { int SIDES = 4; int area(); }
