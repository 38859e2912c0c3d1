class A
  def f
    1
    2.x
    "a"
  end
  def g
    y = 2.x
    1; :b
  end
end
