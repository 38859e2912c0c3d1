class A
  def f
    1.5
  end
end
