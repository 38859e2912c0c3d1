class A
  def f
    1_
  end
end
