class A
  def f
    x = 1
    x -1
  end
end
