class A
  def f
    nil
  end
end
