class A
  def f
    1 2
  end
end
