class A
  def f
    "# no comment #"
  end
end
